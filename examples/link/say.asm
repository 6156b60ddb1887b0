; The second of three modules: it prints texts by the first module's `put`, counts the bytes, and has a text of its own.
;
;       nasm -f obj say.asm -o say.obj

        cpu     8086

        global  say, farewell
        extern  put

        group   dgroup data

        segment text public align=1 class=CODE
say:    lodsb                           ; the bytes at DS:SI, to the 0 after them
        or      al, al
        jz      .said
        call    put                     ; near, back into the first module
        inc     word [es:count]
        jmp     say
.said:  ret

        segment data public align=2 class=DATA
farewell:
        db      'and for itself: 85 bytes in all, which is a ', 0

        segment shared common align=2 class=SHARED
count:  resw    1
room:   resb    6                       ; so this module's view of the common segment is the longer one
