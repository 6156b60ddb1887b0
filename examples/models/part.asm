; The other module of a program in each memory model (main.asm). In the model HUGE its data are a segment of 64 KB.
;
;       nasm -f obj -dMODEL part.asm

        cpu     8086
%include "model.inc"

        global  twice, last, count
%ifdef FAR_DATA
        common  sum 2:far
%else
        common  sum 2:near
%endif

%ifdef TINY
        group   DGROUP _TEXT _DATA
%elifndef FAR_DATA
        group   DGROUP _DATA
%endif

%ifdef FAR_CODE
        segment PART_TEXT public align=1 class=CODE
%else
        segment _TEXT public align=1 class=CODE
%endif
twice:
        add     ax, ax
%ifdef FAR_DATA
        push    ds
        mov     bx, PART_DATA
        mov     ds, bx
        add     ax, [three]
        pop     ds
%else
        add     ax, [three wrt DGROUP]
%endif
        BACK

last:
%ifdef FAR_DATA
        mov     bx, seg sum
        mov     es, bx
        mov     ax, [es:sum]
%else
        mov     ax, [sum wrt DGROUP]
%endif
        sub     ax, 19
        BACK

%ifdef FAR_DATA
        segment PART_DATA private align=16 class=FAR_DATA
%else
        segment _DATA public align=2 class=DATA
%endif
%ifdef HUGE
        resb    65532
%endif
three:  dw      3
count:  dw      5
