; HI - prints Hi

bdos:   equ     5               ; where CP/M is called: C is the number of the call

        org     100h            ; where CP/M loads a program

        ld      c,9             ; call 9 prints the text at DE up to a '$'
        ld      de,hi
        call    bdos
        ret                     ; to CP/M

hi:     db      'Hi$'
        end
