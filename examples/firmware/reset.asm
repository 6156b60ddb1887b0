; A ROM of 64 KB for an 8086, first of three modules: the processor begins at FFFF0H.
        cpu     8086
        extern  begin

        segment reset class=RESET align=16

        jmp     far begin
        db      "11/26/26"
        times 16 - ($ - $$) db 0FFh
