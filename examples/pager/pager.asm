; PAGER - shows a text file, a screen at a time
;
;       PAGER filename
;
; After each screen it waits for a key: a blank shows the next screen,
; RETURN one more line, and Q ends it.  It asks again after another key.
;
; A program of CP/M is loaded at 0100H and begins there.  It asks CP/M for
; all that it wants by `call 5`, with the number of the call in C and what
; the call is about in DE or E.  The answer comes in A.  A call keeps no
; register but SP.

bdos:   equ     5               ; where CP/M is called

; CP/M takes the first word behind the command, here `filename`, and puts it
; in capitals into a file control block (FCB) at 005CH: a byte for the drive,
; 8 bytes of name and 3 of type, filled up with blanks.  Calls about a file
; get the address of its FCB, and keep their place in the file there.
fcb:    equ     5Ch

; A file is read in records of 128 bytes.  They come to the DMA address,
; which is 0080H where a program has not set another.
buffer: equ     80h

        org     100h

        ld      a,(fcb+1)       ; the first letter of the name
        cp      ' '
        ld      de,usage
        jp      z,say           ; there was no word
        ld      de,fcb
        ld      c,15            ; call 15 opens a file
        call    bdos
        inc     a               ; 0FFH says that it is not there
        ld      de,nofile
        jp      z,say
        call    full

record: ld      de,fcb
        ld      c,20            ; call 20 reads the next record
        call    bdos
        or      a               ; 0 says that there was one
        ret     nz              ; a program ends by RET
        ld      hl,buffer

next:   ld      a,(hl)
        cp      1Ah             ; ends a text, as its length is told in
        ret     z               ; records alone
        ld      a,(left)
        or      a
        call    z,wait          ; the screen is full, and there is more
        ld      a,(hl)
        cp      0Dh             ; a line ends by 0DH 0AH, or in a file of
        jp      z,done          ; Unix by 0AH alone
        cp      0Ah
        jp      nz,show
        ld      a,(left)
        dec     a
        ld      (left),a
        ld      a,0Dh
        call    print
        ld      a,0Ah
show:   call    print
done:   inc     l               ; the buffer ends before 0100H
        jp      nz,next
        jp      record

; Asks for a key, and says in `left` how many lines may come now.
wait:   push    hl
        ld      de,prompt
        call    say
        ld      c,1             ; call 1 waits for a key and shows it
        call    bdos
        push    af
        ld      de,wipe
        call    say
        pop     af
        pop     hl
        cp      ' '
        jp      z,full
        cp      0Dh
        jp      z,one
        and     5Fh             ; a letter becomes a capital
        cp      'Q'
        jp      nz,wait
        pop     hl              ; drops the way back to `next`
        ret                     ; ends the program

full:   ld      a,(height)
        ld      (left),a
        ret

one:    ld      a,1
        ld      (left),a
        ret

; Prints the byte A, and keeps HL.
print:  push    hl
        ld      e,a
        ld      c,2             ; call 2 prints the byte in E
        call    bdos
        pop     hl
        ret

; Prints the text at DE.
say:    ld      c,9             ; call 9 prints up to a '$'
        jp      bdos

usage:  db      'USAGE: PAGER FILENAME',0Dh,0Ah,'$'
nofile: db      'NO FILE',0Dh,0Ah,'$'
prompt: db      '-- more --$'
wipe:   db      0Dh,'           ',0Dh,'$'

left:   db      0               ; lines that may come before the next key
height: db      23              ; the lines of a screen: the last byte
        end
