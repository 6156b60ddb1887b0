; The main module of a program in each memory model: it adds up what the other module has, and exits with 7.
;
;       nasm -f obj -dMODEL main.asm            MODEL is TINY, SMALL, MEDIUM, COMPACT, LARGE or HUGE
;
; It calls `twice` and `last` (near, or far in the models of far code), reads `count` (in the group, or in a segment of its own in the models of
; far data), and writes the communal `sum`.

        cpu     8086
%include "model.inc"

        extern  twice, last
%ifdef FAR_DATA
        extern  count
        common  sum 2:far
%else
        extern  count:wrt DGROUP
        common  sum 2:near
%endif

%ifdef TINY
        group   DGROUP _TEXT _DATA
%else
        group   DGROUP _DATA
%endif

%ifdef FAR_CODE
        segment MAIN_TEXT public align=1 class=CODE
%else
        segment _TEXT public align=1 class=CODE
%endif
%ifdef TINY
        resb    100h
%endif
..start:
%ifndef TINY
        mov     ax, DGROUP
        mov     ds, ax
%endif
        mov     ax, [nine wrt DGROUP]
        call    WAY twice               ; 2 * 9 + 3 = 21
%ifdef FAR_DATA
        mov     bx, seg count
        mov     es, bx
        add     ax, [es:count]          ; 26
        mov     bx, seg sum
        mov     es, bx
        mov     [es:sum], ax
%else
        add     ax, [count]
        mov     [sum wrt DGROUP], ax
%endif
        call    WAY last                ; 26 - 19 = 7
        mov     ah, 4Ch
        int     21h

        segment _DATA public align=2 class=DATA
nine:   dw      9

%ifdef HUGE
        segment MAIN_DATA private align=16 class=FAR_DATA
        resb    65535
        db      0
%endif

%ifndef TINY
        segment STACK stack align=16 class=STACK
        resb    256
%endif
