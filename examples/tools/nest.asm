; NEST - reads the script up to a carriage return, and counts open
; parentheses.  It is to fail: a third open one halts, and one that closes
; too much goes on into a byte which is no opcode.

        org     100h
        ld      b,0             ; how many are open
next:   push    bc
        ld      c,1             ; call 1 takes a byte from the console
        call    5
        pop     bc
        cp      0Dh
        ret     z
        cp      '('
        jp      nz,close
        inc     b
        ld      a,b
        cp      3
        jp      nz,next
        halt
close:  cp      ')'
        jp      nz,next
        dec     b
        jp      p,next
        defb    0EDh
