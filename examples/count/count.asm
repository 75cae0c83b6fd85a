; COUNT - counts the lines, words and bytes of a text file
;
;       COUNT filename
;
; A program of CP/M is loaded at 0100H and begins there.  It asks CP/M for
; all that it wants by `call 5`, with the number of the call in C and what
; the call is about in DE.  The answer comes in A.  A call keeps no register
; but SP.

bdos:   equ     5               ; where CP/M is called

; CP/M takes the first word behind the command, here `filename`, and puts it
; in capitals into a file control block (FCB) at 005CH: a byte for the drive,
; 8 bytes of name and 3 of type, filled up with blanks.  Calls about a file
; get the address of its FCB, and keep their place in the file there.
fcb:    equ     5Ch

; A file is read in records of 128 bytes.  They come to the DMA address,
; which is 0080H where a program has not set another.
buffer: equ     80h

digits: equ     7               ; a file has at most 8,388,608 bytes

        org     100h

        ld      a,(fcb+1)       ; the first letter of the name
        cp      ' '
        ld      de,usage
        jp      z,say           ; there was no word
        ld      de,fcb
        ld      c,15            ; call 15 opens a file
        call    bdos
        inc     a               ; 0FFH says that it is not there
        ld      de,nofile
        jp      z,say

record: ld      de,fcb
        ld      c,20            ; call 20 reads the next record
        call    bdos
        or      a               ; 0 says that there was one
        jp      nz,tell
        ld      de,buffer

next:   ld      a,(de)
        cp      1Ah             ; ends a text, as its length is told in
        jp      z,tell          ; records alone
        ld      hl,bytes+digits-1
        call    count
        ld      a,(de)
        cp      0Ah
        ld      hl,lines+digits-1
        call    z,count
        ld      a,(de)
        cp      ' '             ; a blank, or 09H to 0DH, stands between words
        jp      z,blank
        cp      9
        jp      c,letter
        cp      0Eh
        jp      c,blank

letter: ld      a,(inword)      ; a word begins where none was
        or      a
        ld      hl,words+digits-1
        call    z,count
        ld      a,1
        jp      noted
blank:  ld      a,0
noted:  ld      (inword),a
        inc     e               ; the buffer ends before 0100H
        jp      nz,next
        jp      record

; Adds one to the decimal number whose last digit is at HL.  Where a digit
; was 9 it becomes 0, and one is added to the digit before it.
count:  ld      a,(hl)
        inc     a
        cp      '9'+1
        jp      c,fits
        ld      (hl),'0'
        dec     hl
        jp      count
fits:   ld      (hl),a
        ret

; Prints the three numbers with their words.
tell:   ld      hl,lines
        call    shown
        ld      hl,words
        call    shown
        ld      hl,bytes

; Prints the number at HL without the zeros before it, and the text behind.
shown:  ld      a,(hl)
        cp      '0'
        jp      nz,found
        inc     hl
        ld      a,(hl)
        cp      ' '             ; the number is 0, which is shown
        jp      nz,shown
        dec     hl
found:  ex      de,hl

; Prints the text at DE.
say:    ld      c,9             ; call 9 prints up to a '$'
        jp      bdos            ; the RET of the call is that of this

usage:  db      'USAGE: COUNT FILENAME',0Dh,0Ah,'$'
nofile: db      'NO FILE',0Dh,0Ah,'$'

inword: db      0               ; 1 within a word
lines:  db      '0000000 lines, $'
words:  db      '0000000 words, $'
bytes:  db      '0000000 bytes',0Dh,0Ah,'$'
        end
