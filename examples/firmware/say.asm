; Third module: writes the text at DS:SI, up to a zero byte, to the serial port of its data.
        cpu     8086
        global  say

        segment code class=CODE align=16

say:    mov     dx, [port]
next:   lodsb
        or      al, al
        jz      done
        out     dx, al
        jmp     next
done:   retf

        segment data class=DATA align=2

port:   dw      3F8h
