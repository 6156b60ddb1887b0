; A lamp that blinks: code and data in two segments, the data in a group, and a routine that another module has.
        cpu     8086
        extern  delay
        global  blink
        group   dgroup data

        segment code align=16 class=CODE
blink:  mov     ax, dgroup
        mov     ds, ax
        mov     cx, [count wrt dgroup]
again:  mov     al, 1
        out     61h, al
        call    delay
        mov     al, 0
        out     61h, al
        call    delay
        loop    again
        mov     word [count wrt dgroup], 0
        retf

        segment data align=2 class=DATA
count:  dw      5
where:  dw      count wrt dgroup, dgroup
