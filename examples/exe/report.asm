; The third module: report has show print a text, by a far pointer in data, and the call goes through a far pointer too.
;
;       nasm -f obj report.asm -o report.obj

        cpu     8086

        global  report
        extern  show

        segment report_text public align=1 class=CODE
report:
        mov     ax, report_data
        mov     es, ax
        les     bx, [es:table]
        push    es
        push    bx
        mov     ax, report_data
        mov     es, ax
        call    far [es:table + 4]
        retf

        segment report_data private align=16 class=FAR_DATA
table:  dw      text, seg text          ; far pointers in data: relocation words
        dw      show, seg show
text:   db      'report: a text at a far pointer', 13, 10, '$'
