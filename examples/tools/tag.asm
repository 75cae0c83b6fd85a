; TAG - asks for a name, and prints a tag with it.  It is to fail: a name of
; more than eight bytes is copied over the text behind it.

        org     100h
        ld      de,line
        ld      c,10            ; call 10 reads a line into the buffer at DE
        call    5
        ld      hl,line+1       ; the count of bytes that were read
        ld      b,(hl)
        inc     hl
        ld      de,name
copy:   ld      a,(hl)
        ld      (de),a
        inc     hl
        inc     de
        dec     b
        jp      nz,copy
        ld      de,tag
        ld      c,9             ; call 9 prints the text at DE up to a '$'
        call    5
        ret

tag:    db      0Ah,'Name: '
name:   db      '        '      ; eight bytes
        db      ' Shelf: 7$'
line:   db      20              ; the most bytes of a name
        end
