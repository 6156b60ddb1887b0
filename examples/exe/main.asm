; The first of three modules: a DOS program. It shows a text of its own, calls the other two by far calls, and exits with the number of texts
; that were shown.
;
;       nasm -f obj main.asm -o main.obj

        cpu     8086

        extern  show, report, shown

        group   dgroup data stack

        segment main_text public align=1 class=CODE
..start:
        mov     ax, dgroup              ; a selector: a relocation word
        mov     ds, ax
        mov     ax, greeting wrt dgroup
        push    ds
        push    ax
        call    far show                ; a far pointer: a relocation word
        call    far report
        mov     ax, seg shown           ; the frame of the second module's data
        mov     es, ax
        mov     al, [es:shown]
        mov     ah, 4Ch
        int     21h

        segment data public align=2 class=DATA
greeting:
        db      'main: a text in its group', 13, 10, '$'

        segment stack stack align=16 class=STACK
        resb    256
