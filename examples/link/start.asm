; The first of three modules: a boot sector's program. It has the second module print two texts, shows how many bytes were put, and ends
; the emulator. Its output goes to the first serial port.
;
;       nasm -f obj start.asm -o start.obj

        cpu     8086

        global  put
        extern  say, farewell

        group   dgroup data

        segment text public align=1 class=CODE
..start:
        cli
        xor     ax, ax
        mov     ss, ax
        mov     sp, 0x7C00
        mov     ax, dgroup              ; the frame of the data of all modules
        mov     ds, ax
        mov     ax, seg count
        mov     es, ax
        mov     word [es:count], 0
        mov     si, greeting wrt dgroup
        call    say                     ; near: the code of all modules has one frame
        mov     si, farewell wrt dgroup
        call    say
        mov     al, [es:count]          ; the second module counts in the same place
        call    put
        mov     dx, 0xF4
        out     dx, al

put:    mov     dx, 0x3F8               ; a byte in AL to the port
        out     dx, al
        ret

        segment data public align=2 class=DATA
greeting:
        db      'said by the second module for the first', 13, 10, 0

        segment shared common align=2 class=SHARED
count:  resw    1
