; The third of three modules: the mark of a boot sector, which is at its end.
;
;       nasm -f obj mark.asm -o mark.obj

        segment mark private align=1 class=MARK
        db      0x55, 0xAA
