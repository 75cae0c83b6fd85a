; SORT - sorts the lines of a text file into another file
;
;       SORT from to
;
; The lines come in the order of their bytes, and each ends by 0DH 0AH.
; `from` and `to` may be one file.  The whole text is in memory.
;
; A program of CP/M is loaded at 0100H and begins there.  It asks CP/M for
; all that it wants by `call 5`, with the number of the call in C and what
; the call is about in DE.  The answer comes in A.  A call keeps no register
; but SP.

bdos:   equ     5               ; where CP/M is called
top:    equ     6               ; the word here is the address of the system:
                                ; all below it is the program's

; CP/M puts the first word behind the command, in capitals, into a file
; control block (FCB) at 005CH: a byte for the drive, 8 bytes of name and 3
; of type, filled up with blanks.  The second word it puts at 006CH, which is
; within the first FCB: opening the first file writes over it.
fcb:    equ     5Ch
second: equ     6Ch

; A file is read and written in records of 128 bytes at the DMA address,
; which is 0080H where a program has not set another.
buffer: equ     80h

        org     100h

        ld      sp,stack
        ld      a,(second+1)    ; the first letter of the second name
        cp      ' '
        ld      de,usage
        jp      z,fail
        ld      hl,second       ; saves the second name
        ld      de,target
        ld      b,12
copy:   ld      a,(hl)
        ld      (de),a
        inc     hl
        inc     de
        dec     b
        jp      nz,copy
        ld      de,fcb
        ld      c,15            ; call 15 opens a file
        call    bdos
        inc     a               ; 0FFH says that it is not there
        ld      de,nofile
        jp      z,fail

; Reads the records, each behind the one before.
        ld      hl,text
record: ld      de,128
        call    room
        push    hl
        ex      de,hl
        ld      c,26            ; call 26 sets the DMA address
        call    bdos
        ld      de,fcb
        ld      c,20            ; call 20 reads the next record
        call    bdos
        pop     hl
        or      a               ; 0 says that there was one
        jp      nz,ended
        ld      de,128
        add     hl,de
        jp      record
ended:  ld      (hl),1Ah        ; 1AH ends a text, here in any case
        inc     hl

; Makes a table behind the text: the address of each line.  A byte 0 takes
; the place of the end of a line.
        ld      (table),hl
        ld      de,text
line:   ld      a,(de)
        cp      1Ah
        jp      z,listed
        push    de
        ld      de,2
        call    room
        pop     de
        ld      (hl),e          ; the low byte of an address is first
        inc     hl
        ld      (hl),d
        inc     hl
within: ld      a,(de)
        cp      1Ah
        jp      z,last          ; the last line lacks its end
        inc     de
        cp      0Ah
        jp      nz,within
        dec     de
        xor     a
        ld      (de),a
        dec     de
        ld      a,(de)
        cp      0Dh             ; 0DH 0AH, or in a file of Unix 0AH alone
        jp      nz,unix
        xor     a
        ld      (de),a
unix:   inc     de
        inc     de
        jp      line
last:   xor     a
        ld      (de),a
listed: ld      (tabend),hl

; Sorts the addresses: each line is put in among those before it.
        ld      hl,(table)
each:   ld      a,(tabend)      ; HL is where the next line is
        cp      l
        jp      nz,insert
        ld      a,(tabend+1)
        cp      h
        jp      z,write
insert: push    hl
        ld      e,(hl)
        inc     hl
        ld      d,(hl)
        dec     hl
        ex      de,hl
        ld      (taken),hl      ; the line that is put in
        ex      de,hl
back:   ld      a,(table)       ; HL is where it may go
        cp      l
        jp      nz,before
        ld      a,(table+1)
        cp      h
        jp      z,placed        ; there is nothing before it
before: dec     hl
        ld      d,(hl)
        dec     hl
        ld      e,(hl)          ; the line before
        push    hl
        ld      hl,(taken)
        call    less
        pop     hl
        jp      nc,behind
        inc     hl              ; moves the line before up
        inc     hl
        ld      (hl),e
        inc     hl
        ld      (hl),d
        dec     hl
        dec     hl
        dec     hl
        jp      back
behind: inc     hl
        inc     hl
placed: ex      de,hl
        ld      hl,(taken)
        ex      de,hl
        ld      (hl),e
        inc     hl
        ld      (hl),d
        pop     hl
        inc     hl
        inc     hl
        jp      each

; Writes the lines, by the addresses in the table.
write:  ld      de,buffer
        ld      c,26
        call    bdos
        ld      de,target
        ld      c,19            ; call 19 deletes a file, where there is one
        call    bdos
        ld      de,target
        ld      c,22            ; call 22 makes a file
        call    bdos
        inc     a               ; 0FFH says that there is no room for it
        jp      z,nodisk
        ld      hl,(table)
write1: ld      a,(tabend)
        cp      l
        jp      nz,write2
        ld      a,(tabend+1)
        cp      h
        jp      z,close
write2: ld      e,(hl)
        inc     hl
        ld      d,(hl)
        inc     hl
write3: ld      a,(de)
        inc     de
        or      a
        jp      z,write4
        call    put
        jp      write3
write4: ld      a,0Dh
        call    put
        ld      a,0Ah
        call    put
        jp      write1

; Fills the last record up with 1AH, and closes the file: without that its
; records would not be found again.
close:  ld      a,(place)
        cp      buffer
        jp      z,closed
        ld      a,1Ah
        call    put
        jp      close
closed: ld      de,target
        ld      c,16            ; call 16 closes a file
        call    bdos
        inc     a
        jp      z,nodisk
        ld      de,sorted
fail:   ld      c,9             ; call 9 prints the text at DE up to a '$'
        call    bdos
        jp      0               ; ends a program, as RET does with the first
                                ; stack

nodisk: ld      de,mdisk
        jp      fail

; Puts the byte A into the record, which is written when it is full.  Keeps
; DE and HL.
put:    push    hl
        push    de
        ld      hl,(place)
        ld      (hl),a
        inc     hl
        ld      (place),hl
        ld      a,h             ; the record ends before 0100H
        or      a
        jp      z,put1
        ld      hl,buffer
        ld      (place),hl
        ld      de,target
        ld      c,21            ; call 21 writes the next record
        call    bdos
        or      a
        jp      nz,nodisk
put1:   pop     de
        pop     hl
        ret

; Carry, where the line at HL comes before the line at DE, which is kept.
less:   push    de
less1:  ld      a,(de)
        ld      c,a
        ld      a,(hl)
        cp      c
        jp      nz,less2
        or      a               ; both end: neither comes before the other
        jp      z,less2
        inc     hl
        inc     de
        jp      less1
less2:  pop     de
        ret

; Ends the program where the DE bytes from HL on reach the system.  Keeps HL.
room:   push    hl
        add     hl,de
        ex      de,hl
        ld      hl,(top)
        ld      a,e
        sub     l
        ld      a,d
        sbc     a,h
        pop     hl
        ret     c
        ld      de,mroom
        jp      fail

usage:  db      'USAGE: SORT FROM TO',0Dh,0Ah,'$'
nofile: db      'NO FILE',0Dh,0Ah,'$'
mroom:  db      'TOO LONG',0Dh,0Ah,'$'
mdisk:  db      'DISK FULL',0Dh,0Ah,'$'
sorted: db      'SORTED',0Dh,0Ah,'$'

place:  dw      buffer          ; where the next byte of the record goes
table:  dw      0               ; the table, and where it ends
tabend: dw      0
taken:  dw      0
target: ds      36              ; the FCB of the second file
        ds      32
stack:  db      0               ; SP goes down from here; no 0DH before the
text:   end                     ; text
