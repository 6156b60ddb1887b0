; The first of two modules that call one another: a boot sector, which has the other module print a text, and has `put` for it.
; Their output goes to the first serial port; then this one ends the emulator.
;
;       nasm -f obj caller.asm -o caller.obj

        cpu     8086

        global  put
        extern  say, farewell

        segment caller align=1 class=CODE
..start:
        cli
        xor     ax, ax
        mov     ss, ax
        mov     sp, 0x7C00
        mov     ds, ax
        mov     si, greeting
        call    far say                 ; a far pointer to the other module's public
        mov     ax, seg farewell        ; the selector of the other module's public
        mov     ds, ax
        mov     si, farewell            ; and its offset
        call    far say
        mov     dx, 0xF4
        out     dx, al

put:    mov     dx, 0x3F8               ; a byte in AL to the port
        out     dx, al
        retf

greeting:
        db      'called from the first', 13, 10, 0

        segment mark align=1 class=MARK
        db      0x55, 0xAA
