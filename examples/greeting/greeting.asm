; GREETING - asks for a name and greets it, by calls 9 and 10 of CP/M 2.2

bdos:   equ     5               ; where CP/M is called: C is the number of the call

        org     100h            ; where CP/M loads a program

        ld      de,ask
        ld      c,9             ; call 9 prints the text at DE up to a '$'
        call    bdos
        ld      de,buffer
        ld      c,10            ; call 10 reads a line into the buffer at DE
        call    bdos
        ld      hl,buffer+1     ; the count of bytes that were read
        ld      e,(hl)
        ld      d,0
        inc     hl
        add     hl,de
        ld      (hl),'$'        ; ends the name
        ld      de,hello
        ld      c,9
        call    bdos
        ld      de,buffer+2     ; the line itself
        ld      c,9
        call    bdos
        ret

ask:    db      'Name? $'
hello:  db      0Ah,'Hello, $'
buffer: db      16              ; the most bytes of a name
        end
