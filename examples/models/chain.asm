; Four modules for libraries that need each other: PART is 0 (the main module), 1, 2 or 3.
;
;       nasm -f obj -dPART=0 chain.asm
;
; Part 0 calls f1, f1 calls f2, f2 calls f3; the program exits with 7.

        cpu     8086

%if PART < 3
  %assign NEXT PART + 1
        extern  f%[NEXT]
%endif
        segment _TEXT public align=1 class=CODE
%if PART == 0
..start:
        xor     ax, ax
        call    f1
        mov     ah, 4Ch
        int     21h
        segment STACK stack align=16 class=STACK
        resb    256
%else
        global  f%[PART]
f%[PART]:
  %if PART < 3
        call    f%[NEXT]
  %endif
        add     ax, PART
  %if PART == 3
        inc     ax                      ; 3 + 1 + 2 + 1 = 7
  %endif
        ret
%endif
