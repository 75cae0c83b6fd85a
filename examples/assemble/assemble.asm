; ASSEMBLE - makes a program of its bytes in hexadecimal digits
;
;       ASSEMBLE filename
;
; reads the text `filename` and makes the file of this name and the type COM:
;
;       3E      two digits are a byte
;       "text"  stands for the bytes of the text
;       :a      gives this place the name `a`, which is a letter a to z
;       @a      is the address of that place, its low byte first
;       ; text  up to the end of the line is left out
;
; A program of CP/M is loaded at 0100H and begins there.  It asks CP/M for
; all that it wants by `call 5`, with the number of the call in C and what
; the call is about in DE.  The answer comes in A.  A call keeps no register
; but SP.

bdos:   equ     5               ; where CP/M is called
top:    equ     6               ; the word here is the address of the system:
                                ; all below it is the program's

; CP/M takes the first word behind the command, here `filename`, and puts it
; in capitals into a file control block (FCB) at 005CH: a byte for the drive,
; 8 bytes of name and 3 of type, filled up with blanks.  Calls about a file
; get the address of its FCB, and keep their place in the file there.
fcb:    equ     5Ch

; A file is read and written in records of 128 bytes at the DMA address,
; which is 0080H where a program has not set another.
buffer: equ     80h

        org     100h

        ld      sp,stack
        ld      a,(fcb+1)       ; the first letter of the name
        cp      ' '
        ld      de,usage
        jp      z,fail
        ld      hl,fcb          ; the other file: the same drive and name
        ld      de,target
        ld      b,9
copy:   ld      a,(hl)
        ld      (de),a
        inc     hl
        inc     de
        dec     b
        jp      nz,copy
        call    pass            ; the first time the places get their names,
        ld      a,1             ; and the second time all names are known
        ld      (known),a
        call    pass
        jp      write

; Reads the text, and puts the program into memory from `image` on.
pass:   ld      a,0             ; from the first record on
        ld      (fcb+12),a
        ld      (fcb+32),a
        ld      de,fcb
        ld      c,15            ; call 15 opens a file
        call    bdos
        inc     a               ; 0FFH says that it is not there
        ld      de,nofile
        jp      z,fail
        ld      hl,100h
        ld      (place),hl
        ld      hl,image
        ld      (here),hl
        ld      hl,3030h        ; two digits 0
        ld      (line),hl
        ld      (line+2),hl
        call    count

next:   call    get
        ret     c
        cp      '!'             ; blanks and ends of lines are below it
        jp      c,next
        cp      ';'
        jp      z,remark
        cp      '"'
        jp      z,quote
        cp      ':'
        jp      z,label
        cp      '@'
        jp      z,refer
        call    digit
        add     a,a
        add     a,a
        add     a,a
        add     a,a
        push    af
        call    get
        jp      c,wrong
        call    digit
        pop     bc
        or      b
        call    add1
        jp      next

remark: call    get
        ret     c
        cp      0Ah
        jp      nz,remark
        jp      next

quote:  call    get
        jp      c,wrong
        cp      ' '
        jp      c,wrong         ; the line ends before the text
        cp      '"'
        jp      z,next
        call    add1
        jp      quote

label:  call    letter
        inc     hl
        ld      a,(known)
        or      a
        jp      nz,label1
        or      (hl)
        jp      nz,wrong        ; another place has this name
label1: dec     hl
        ex      de,hl
        ld      hl,(here)
        ld      bc,100h-image
        add     hl,bc           ; the address in the program
        ex      de,hl
        ld      (hl),e
        inc     hl
        ld      (hl),d
        jp      next

refer:  call    letter
        ld      e,(hl)
        inc     hl
        ld      d,(hl)
        ld      a,(known)
        and     1
        jp      z,refer1
        ld      a,d
        or      a
        jp      z,wrong         ; no place has this name
refer1: ld      a,e
        call    add1
        ld      a,d
        call    add1
        jp      next

; Reads the letter of a name, and gives in HL where its address is kept.
letter: call    get
        jp      c,wrong
        sub     'a'
        jp      c,wrong
        cp      26
        jp      nc,wrong
        add     a,a
        ld      e,a
        ld      d,0
        ld      hl,names
        add     hl,de
        ret

; The value of the digit A, which is one of 0 to 9, A to F and a to f.
digit:  sub     '0'
        jp      c,wrong
        cp      10
        ret     c
        and     0DFh            ; the same for capitals and small letters
        sub     'A'-'0'
        jp      c,wrong
        cp      6
        jp      nc,wrong
        add     a,10
        ret

; Adds the byte A to the program.  Keeps BC and DE.
add1:   ld      hl,(here)
        ld      (hl),a
        inc     hl
        ld      (here),hl
        ld      a,(top+1)
        dec     a
        cp      h               ; stops a page below the system
        ret     nz
        ld      de,mroom
        jp      fail

; The next byte of the text in A.  Carry, where it has no more.
get:    ld      hl,(place)
        ld      a,h             ; the record ends before 0100H
        or      a
        jp      z,get1
        ld      de,fcb
        ld      c,20            ; call 20 reads the next record
        call    bdos
        or      a               ; 0 says that there was one
        jp      nz,get2
        ld      hl,buffer
get1:   ld      a,(hl)
        cp      1Ah             ; ends a text, as its length is told in
        jp      z,get2          ; records alone
        inc     hl
        ld      (place),hl
        cp      0Ah
        call    z,count
        or      a               ; no carry
        ret
get2:   ld      hl,100h
        ld      (place),hl
        scf
        ret

; Adds one to the decimal number of the line.  Keeps A.
count:  push    af
        ld      hl,line+3
count1: ld      a,(hl)
        inc     a
        ld      (hl),a
        cp      '9'+1
        jp      c,count2
        ld      (hl),'0'        ; 9 becomes 0, and one goes to the digit
        dec     hl              ; before it
        jp      count1
count2: pop     af
        ret

; Fills the last record up with zeros, and writes the program.
write:  ld      hl,(here)
        ld      de,0-image
        add     hl,de
        ld      a,l
        and     7Fh
        jp      z,write1
        ld      a,0
        call    add1
        jp      write
write1: ld      de,target
        ld      c,19            ; call 19 deletes a file, where there is one
        call    bdos
        ld      de,target
        ld      c,22            ; call 22 makes a file
        call    bdos
        inc     a               ; 0FFH says that there is no room for it
        jp      z,nodisk
        ld      hl,image
write2: ld      a,(here)
        cp      l
        jp      nz,write3
        ld      a,(here+1)
        cp      h
        jp      z,write4
write3: push    hl
        ex      de,hl
        ld      c,26            ; call 26 sets the DMA address
        call    bdos
        ld      de,target
        ld      c,21            ; call 21 writes the next record
        call    bdos
        pop     hl
        or      a
        jp      nz,nodisk
        ld      de,128
        add     hl,de
        jp      write2
write4: ld      de,target
        ld      c,16            ; call 16 closes a file: without that its
        call    bdos            ; records would not be found again
        inc     a
        jp      z,nodisk
        ld      de,made
fail:   ld      c,9             ; call 9 prints the text at DE up to a '$'
        call    bdos
        jp      0               ; ends a program, as RET does with the first
                                ; stack

nodisk: ld      de,mdisk
        jp      fail

wrong:  ld      de,mwrong       ; no file is made
        jp      fail

usage:  db      'USAGE: ASSEMBLE FILENAME',0Dh,0Ah,'$'
nofile: db      'NO FILE',0Dh,0Ah,'$'
mroom:  db      'TOO LONG',0Dh,0Ah,'$'
mdisk:  db      'DISK FULL',0Dh,0Ah,'$'
made:   db      'MADE',0Dh,0Ah,'$'
mwrong: db      'LINE '
line:   db      '0000 ?',0Dh,0Ah,'$'

known:  db      0               ; 1 the second time
place:  dw      0               ; where the next byte of the record stands
here:   dw      0               ; where the next byte of the program goes
names:  ds      52              ; the addresses of the places a to z
target: db      0,'        COM' ; the FCB of the program that is made
        ds      24
        ds      32
stack:  db      0               ; SP goes down from here
image:  end
