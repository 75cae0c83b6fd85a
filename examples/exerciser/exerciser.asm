; EXERCISER - compares the instructions of the 8080 with real chips
;
;       EXERCISER [group] ...
;
; There are 25 groups of instructions, and `group` is the number of one.
; Without a number all are tested.
;
; The instructions of a group are executed in many states of the 8080, and
; what each state becomes goes into a CRC.  The table at the end has the CRCs
; that real 8080 chips gave, from the instruction exerciser in general use by
; F. Cringle and I. Bartholomew.  One wrong bit gives another CRC.  All groups
; together take 433 million instructions.
;
; A program of CP/M is loaded at 0100H and begins there.  It asks CP/M for
; all that it wants by `call 5`, with the number of the call in C and what
; the call is about in DE.  The answer comes in A.  A call keeps no register
; but SP.

bdos:   equ     5               ; where CP/M is called

; CP/M puts the command tail here: its length, and then its letters.
tail:   equ     80h

groups: equ     25

; A state has 16 bytes: four for the instruction, with 0 (NOP) after it; the
; word at 0103H, which some instructions read or write; HL, DE and BC; the
; flags and A; SP.  The low byte of a word is first.
size:   equ     16

; Each of these begins a page, so H chooses one of them and L a byte of it.
state:  equ     1000h           ; the state that is tested
count:  equ     1100h           ; its bits that are counted
shift:  equ     1200h           ; its bits that are changed one at a time
value:  equ     1300h           ; the counter, in the bits of `count`
crcs:   equ     1400h           ; the CRC of each byte, in four pages; the
                                ; first page has the lowest bytes

after:  equ     18F0h           ; a state as it goes into the CRC, up to the
                                ; end of a page
stack:  equ     1000h           ; SP goes down from here

        org     100h

        jp      start
word:   dw      0               ; the word at 0103H

; Reads the tail, and marks the groups that it names.  HL is where the last
; letter was read, and B the number of letters that are left.
start:  ld      sp,stack
        ld      hl,tail
        ld      b,(hl)
blanks: call    letter
        jp      z,table
        cp      ' '
        jp      z,blanks
        ld      c,0             ; C becomes the number
digit:  sub     '0'
        cp      10
        jp      nc,wrong        ; this is no digit
        ld      d,a
        ld      a,c
        cp      3
        jp      nc,wrong        ; the number is 30 or more
        add     a,a
        ld      c,a
        add     a,a
        add     a,a
        add     a,c             ; ten times as much
        add     a,d
        ld      c,a
        call    letter
        jp      z,number
        cp      ' '
        jp      nz,digit
number: ld      a,c
        dec     a
        cp      groups
        jp      nc,wrong        ; the number is 0, or more than 25
        push    hl
        ld      e,a
        ld      d,0
        ld      hl,marks
        add     hl,de
        ld      (hl),1
        pop     hl
        xor     a
        ld      (all),a
        jp      blanks

wrong:  ld      de,usage
        call    print
        jp      0               ; ends a program

; Makes the table of CRCs.  A CRC is in E, D, C and B, with its lowest byte in
; B.  For the CRC of a byte its eight bits are shifted out, and for each that
; is 1 the number EDB88320H is added without carries.
table:  ld      hl,crcs
entry:  ld      b,l
        ld      c,0
        ld      d,c
        ld      e,c
        push    hl
        ld      l,8
lowest: or      a               ; clears carry, which comes in from above
        ld      a,e
        rra
        ld      e,a
        ld      a,d
        rra
        ld      d,a
        ld      a,c
        rra
        ld      c,a
        ld      a,b
        rra
        ld      b,a
        jp      nc,zero
        ld      a,e
        xor     0EDh
        ld      e,a
        ld      a,d
        xor     0B8h
        ld      d,a
        ld      a,c
        xor     83h
        ld      c,a
        ld      a,b
        xor     20h
        ld      b,a
zero:   dec     l
        jp      nz,lowest
        pop     hl
        ld      (hl),b
        inc     h
        ld      (hl),c
        inc     h
        ld      (hl),d
        inc     h
        ld      (hl),e
        ld      h,crcs/256
        inc     l
        jp      nz,entry

; Tests each group that is marked, or all.
group:  ld      hl,(vector)
        ld      (title),hl
        ld      a,'$'           ; ends the name of the group
named:  cp      (hl)
        inc     hl
        jp      nz,named
        ex      de,hl
        ld      hl,3*size+4
        add     hl,de
        ld      (vector),hl     ; the next group
        ld      hl,(mark)
        ld      a,(all)
        or      (hl)
        inc     hl
        ld      (mark),hl
        call    nz,whole
        ld      hl,left
        dec     (hl)
        jp      nz,group
        ld      a,(agree)
        call    decimal
        ld      de,mof
        call    print
        ld      a,(tested)
        call    decimal
        ld      de,magree
        call    print
        jp      0

; Tests a whole group.  DE is where its three lines are in the table.
whole:  ld      hl,tested
        inc     (hl)
        ld      hl,state
copy:   ld      a,(de)          ; to `state`, to `count` and to `shift`
        ld      (hl),a
        inc     de
        inc     l
        ld      a,l
        cp      size
        jp      nz,copy
        ld      l,0
        inc     h
        ld      a,h
        cp      value/256
        jp      nz,copy
clear:  ld      (hl),0          ; the counter
        inc     l
        ld      a,l
        cp      size
        jp      nz,clear
        ex      de,hl
        ld      (wanted),hl     ; where the CRC of real chips is
        ld      hl,0FFFFh
        ld      (crc),hl
        ld      (crc+2),hl
        ld      a,0FFh          ; right before the first bit
        ld      (place),a
        ld      a,80h
        ld      (only),a
        ld      hl,(title)
        ex      de,hl
        call    print

; The first state is the first line of the table.  Then the first bit of
; `shift` is changed, and the counter counts until it is 0 again; then the
; second bit alone is changed, and the counter takes all its values again; and
; so on.  In the last round no bit is changed.
        call    test
        call    move
each:   call    next
        jp      nz,more
        ld      a,(place)
        cp      size
        jp      z,done
        call    change          ; changes the bit back
        call    move
more:   call    test
        jp      each

done:   ld      hl,(wanted)
        ld      de,crc
        ld      b,4
alike:  ld      a,(de)
        cp      (hl)
        jp      nz,differ
        inc     hl
        inc     de
        dec     b
        jp      nz,alike
        ld      hl,agree
        inc     (hl)
        ld      de,mreal
        jp      print
differ: ld      de,mcrc
        call    print
        ld      hl,crc
        call    hex
        ld      de,mwant
        call    print
        ld      hl,(wanted)
        call    hex
        ld      de,mline
        jp      print

; The texts, and what changes during a run.
usage:  db      'USAGE: EXERCISER [NUMBERS OF GROUPS, FROM 1 TO 25]'
mline:  db      0Dh,0Ah,'$'
mreal:  db      ': as real chips',0Dh,0Ah,'$'
mcrc:   db      ': CRC $'
mwant:  db      ', real chips $'
mof:    db      ' of $'
magree: db      ' agree',0Dh,0Ah,'$'

mark:   dw      marks           ; the mark of the next group
vector: dw      vectors         ; the next group
title:  dw      0               ; the name of the group
wanted: dw      0               ; where its CRC of real chips is
left:   db      groups          ; how many groups are left
tested: db      0               ; how many were tested
agree:  db      0               ; and how many were as real chips
crc:    ds      4               ; the CRC of the states up to now
place:  db      0               ; the byte of the bit that is changed
only:   db      0               ; 1 for this bit in its byte
caller: dw      0               ; SP before a state is tested
newhl:  dw      0               ; HL after an instruction
all:    db      1               ; 0 if groups are marked
marks:  ds      groups          ; 1 for each group that is marked

; MVI M of group 21 writes at 0339H, which is the last of these bytes.
        ds      33Ah-$

; Adds one to the counter, and changes the same bits in the state.  Z says
; that the counter is 0 again.  Subtracting `count` adds one as if all other
; bits were 1, so that a carry passes through them; AND makes them 0 again.
next:   ld      hl,count
carry:  ld      h,count/256
        ld      c,(hl)
        ld      h,value/256
        ld      b,(hl)
        ld      a,b
        sub     c
        and     c
        ld      (hl),a
        ld      c,a
        xor     b               ; the bits that changed
        ld      h,state/256
        xor     (hl)
        ld      (hl),a
        ld      a,c
        or      a
        ret     nz
        inc     l               ; a byte that is 0 again has a carry
        ld      a,l
        cp      size
        jp      nz,carry
        ret

; Finds the next bit of `shift`, and changes it in the state.  After the last
; one `place` is 16, which is past the state, and nothing is changed.
move:   ld      hl,place
        ld      a,(only)
        rlca
        ld      (only),a
        jp      nc,within
        inc     (hl)
within: ld      a,(hl)
        cp      size
        ret     z
        ld      l,a
        ld      h,shift/256
        ld      a,(only)
        and     (hl)
        jp      z,move
change: ld      a,(place)
        ld      l,a
        ld      h,state/256
        ld      a,(only)
        xor     (hl)
        ld      (hl),a
        ret

; Executes the instruction in the state, and adds what the state becomes to
; the CRC: the word at 0103H, HL three times, DE, BC, flags, A and SP.
test:   ld      a,(state)
        cp      76h             ; HLT would stop here
        ret     z
        ld      hl,0
        add     hl,sp
        ld      (caller),hl
        ld      hl,(state)
        ld      (code),hl
        ld      hl,(state+2)
        ld      (code+2),hl
        ld      hl,(state+4)
        ld      (word),hl
        ld      sp,state+8
        pop     de
        pop     bc
        pop     af
        pop     hl
        ld      sp,hl
        ld      hl,(state+6)
code:   ds      4               ; the instruction comes here
        ld      (newhl),hl      ; keeps the flags
        jp      c,hascy
        ld      hl,0
        add     hl,sp           ; no carry, as before, and no other flag
        jp      saved
hascy:  ld      hl,0
        add     hl,sp
        scf                     ; the carry as before
saved:  ld      (after+14),hl
        ld      sp,after+14     ; pushes the rest, from its end on
        push    af
        push    bc
        push    de
        ld      hl,(newhl)
        push    hl
        push    hl
        push    hl
        ld      hl,(word)
        push    hl
        ld      hl,(caller)
        ld      sp,hl

        ld      hl,(crc)        ; the CRC has its highest byte first
        ex      de,hl
        ld      hl,(crc+2)
        ld      c,l
        ld      b,h
        ld      hl,after
byte:   ld      a,(hl)
        inc     l
        push    hl
        xor     b               ; shifts out B, and adds its entry in the
        ld      l,a             ; table to the three other bytes
        ld      h,crcs/256
        ld      a,(hl)
        xor     c
        ld      b,a
        inc     h
        ld      a,(hl)
        xor     d
        ld      c,a
        inc     h
        ld      a,(hl)
        xor     e
        ld      d,a
        inc     h
        ld      e,(hl)
        pop     hl
        ld      a,l
        or      a               ; 0 at the end of the page
        jp      nz,byte
        ld      h,b
        ld      l,c
        ld      (crc+2),hl
        ex      de,hl
        ld      (crc),hl
        ret

; Reads the next letter of the tail into A.  Z says that there is none.
letter: ld      a,b
        or      a
        ret     z
        dec     b
        inc     hl
        ld      a,(hl)
        or      a
        ret

; Prints the four bytes at HL in hexadecimal digits.
hex:    ld      b,4
hexes:  push    bc
        push    hl
        ld      a,(hl)
        rrca
        rrca
        rrca
        rrca
        call    nibble
        pop     hl
        push    hl
        ld      a,(hl)
        call    nibble
        pop     hl
        pop     bc
        inc     hl
        dec     b
        jp      nz,hexes
        ret
nibble: and     0Fh
        add     a,'0'
        cp      '9'+1
        jp      c,put
        add     a,'A'-'9'-1
        jp      put

; Prints the number A, which is less than 100.
decimal:
        ld      b,'0'-1
tens:   inc     b
        sub     10
        jp      nc,tens
        add     a,'0'+10
        push    af
        ld      a,b
        cp      '0'
        call    nz,put
        pop     af

; Prints the letter A.
put:    ld      e,a
        ld      c,2             ; call 2 prints the letter in E
        jp      bdos

; Prints the text at DE.
print:  ld      c,9             ; call 9 prints up to a '$'
        jp      bdos            ; the RET of the BDOS returns from here

; A group has a name and four lines: its first state, the bits that are
; counted, the bits that are changed one at a time, and the CRC of real chips.
; What an instruction reads or writes in memory is in the word at 0103H,
; except by MVI M.
;
;               instruction   word   HL     DE     BC     A,F    SP
vectors:
        db      'DAD B,D,H,SP$'                             ; 1
        dw      00009h,00000h,0C4A5h,0A050h,058EAh,08566h,0DEC6h,09BC9h
        dw      00030h,00000h,00000h,0F821h,00000h,00000h,00000h,00000h
        dw      00000h,00000h,00000h,0FFFFh,0FFFFh,0FFFFh,000D7h,0FFFFh
        db      014h,047h,04Bh,0A6h
        db      'arithmetic with a byte$'                   ; 2
        dw      000C6h,00000h,09140h,0DF6Dh,05B61h,00B29h,06610h,085B2h
        dw      00038h,00000h,00000h,00000h,00000h,00000h,0FF00h,00000h
        dw      0FF00h,00000h,00000h,00000h,00000h,00000h,000D7h,00000h
        db      09Eh,092h,02Fh,09Eh
        db      'arithmetic with B,C,D,E,H,L,M,A$'          ; 3
        dw      00080h,00000h,0C53Eh,00103h,0E309h,0A666h,03BD0h,0ADBBh
        dw      0003Fh,00000h,00000h,00000h,00000h,00000h,0FF00h,00000h
        dw      00000h,00000h,000FFh,00000h,0FFFFh,0FFFFh,000D7h,00000h
        db      0CFh,076h,02Ch,086h
        db      'DAA,CMA,STC,CMC$'                          ; 4
        dw      00027h,00000h,02141h,0A559h,08D5Bh,09079h,08E04h,0299Dh
        dw      00018h,00000h,00000h,00000h,00000h,00000h,0FFD7h,00000h
        dw      00000h,00000h,00000h,00000h,00000h,00000h,00000h,00000h
        db      0BBh,03Fh,003h,00Ch
        db      'INR,DCR A$'                                ; 5
        dw      0003Ch,00000h,04ADFh,08A2Bh,0A7B0h,0431Bh,05A44h,0D030h
        dw      00001h,00000h,00000h,00000h,00000h,00000h,0FF00h,00000h
        dw      00000h,00000h,00000h,00000h,00000h,00000h,000D7h,00000h
        db      0ADh,0B6h,046h,00Eh
        db      'INR,DCR B$'                                ; 6
        dw      00004h,00000h,0D623h,08180h,05A86h,01E85h,05886h,09BBBh
        dw      00001h,00000h,00000h,00000h,00000h,0FF00h,00000h,00000h
        dw      00000h,00000h,00000h,00000h,00000h,00000h,000D7h,00000h
        db      083h,0EDh,013h,045h
        db      'INX,DCX B$'                                ; 7
        dw      00003h,00000h,0CD97h,0E3E3h,011CCh,0E8A4h,04902h,02A4Dh
        dw      00008h,00000h,00000h,00000h,00000h,0F821h,00000h,00000h
        dw      00000h,00000h,00000h,00000h,00000h,00000h,000D7h,00000h
        db      0F7h,092h,087h,0CDh
        db      'INR,DCR C$'                                ; 8
        dw      0000Ch,00000h,0D789h,09F85h,08B27h,0D208h,00595h,00660h
        dw      00001h,00000h,00000h,00000h,00000h,000FFh,00000h,00000h
        dw      00000h,00000h,00000h,00000h,00000h,00000h,000D7h,00000h
        db      0E5h,0F6h,072h,01Bh
        db      'INR,DCR D$'                                ; 9
        dw      00014h,00000h,0A0EAh,0981Ch,038CCh,0DEBCh,05C43h,003BDh
        dw      00001h,00000h,00000h,00000h,0FF00h,00000h,00000h,00000h
        dw      00000h,00000h,00000h,00000h,00000h,00000h,000D7h,00000h
        db      015h,0B5h,057h,09Ah
        db      'INX,DCX D$'                                ; 10
        dw      00013h,00000h,0342Eh,00ACAh,09967h,03A2Eh,0F692h,09D54h
        dw      00008h,00000h,00000h,00000h,0F821h,00000h,00000h,00000h
        dw      00000h,00000h,00000h,00000h,00000h,00000h,000D7h,00000h
        db      07Fh,04Eh,025h,001h
        db      'INR,DCR E$'                                ; 11
        dw      0001Ch,00000h,0602Fh,0E2F5h,0A0F4h,0A10Ah,03213h,05925h
        dw      00001h,00000h,00000h,00000h,000FFh,00000h,00000h,00000h
        dw      00000h,00000h,00000h,00000h,00000h,00000h,000D7h,00000h
        db      0CFh,02Ah,0B3h,096h
        db      'INR,DCR H$'                                ; 12
        dw      00024h,00000h,01506h,0262Bh,011A6h,0BC1Ah,00617h,02818h
        dw      00001h,00000h,00000h,0FF00h,00000h,00000h,00000h,00000h
        dw      00000h,00000h,00000h,00000h,00000h,00000h,000D7h,00000h
        db      012h,0B2h,095h,02Ch
        db      'INX,DCX H$'                                ; 13
        dw      00023h,00000h,0C3F4h,04F04h,0E2C2h,0822Ah,0E057h,0C3E1h
        dw      00008h,00000h,00000h,0F821h,00000h,00000h,00000h,00000h
        dw      00000h,00000h,00000h,00000h,00000h,00000h,000D7h,00000h
        db      09Fh,02Bh,023h,0C0h
        db      'INR,DCR L$'                                ; 14
        dw      0002Ch,00000h,08031h,0B409h,0F4C1h,0DFA2h,03CD1h,03EA2h
        dw      00001h,00000h,00000h,000FFh,00000h,00000h,00000h,00000h
        dw      00000h,00000h,00000h,00000h,00000h,00000h,000D7h,00000h
        db      0FFh,057h,0D3h,056h
        db      'INR,DCR M$'                                ; 15
        dw      00034h,00000h,0B856h,00103h,0877Eh,0DA58h,05C15h,01F37h
        dw      00001h,00000h,000FFh,00000h,00000h,00000h,00000h,00000h
        dw      00000h,00000h,00000h,00000h,00000h,00000h,000D7h,00000h
        db      092h,0E9h,063h,0BDh
        db      'INX,DCX SP$'                               ; 16
        dw      00033h,00000h,0346Fh,0DEB6h,0A494h,0F476h,00253h,0855Bh
        dw      00008h,00000h,00000h,00000h,00000h,00000h,00000h,0F821h
        dw      00000h,00000h,00000h,00000h,00000h,00000h,000D7h,00000h
        db      0D5h,070h,02Fh,0ABh
        db      'LHLD$'                                     ; 17
        dw      0032Ah,00001h,09863h,0B1FEh,0B9FAh,0ABB8h,00604h,06015h
        dw      00000h,00000h,00000h,00000h,00000h,00000h,00000h,00000h
        dw      00000h,00000h,0FFFFh,00000h,00000h,00000h,00000h,00000h
        db      0A9h,0C3h,0D5h,0CBh
        db      'SHLD$'                                     ; 18
        dw      00322h,00001h,0D003h,03F72h,064EAh,0E180h,02D10h,035E9h
        dw      00000h,00000h,00000h,00000h,00000h,00000h,00000h,00000h
        dw      00000h,00000h,00000h,0FFFFh,00000h,00000h,00000h,00000h
        db      0E8h,086h,04Fh,026h
        db      'LXI B,D,H,SP$'                             ; 19
        dw      00001h,00000h,05C1Ch,06078h,074B1h,0B30Eh,0D146h,030CCh
        dw      00030h,00000h,00000h,00000h,00000h,00000h,00000h,00000h
        dw      0FF00h,000FFh,00000h,00000h,00000h,00000h,00000h,00000h
        db      0FCh,0F4h,06Eh,012h
        db      'LDAX B,D$'                                 ; 20
        dw      0000Ah,00000h,0B3A8h,042ACh,00103h,00103h,0B1C6h,0EF8Eh
        dw      00010h,00000h,00000h,00000h,00000h,00000h,00000h,00000h
        dw      00000h,00000h,000FFh,00000h,00000h,00000h,0FFD7h,00000h
        db      02Bh,082h,01Dh,05Fh
        db      'MVI$'                                      ; 21
        dw      00006h,00000h,0C407h,00339h,0DE89h,07455h,0C053h,05509h
        dw      00038h,00000h,00000h,00000h,00000h,00000h,00000h,00000h
        dw      00000h,00000h,00000h,00000h,00000h,00000h,0FF00h,00000h
        db      0EAh,0A7h,020h,044h
        db      'MOV$'                                      ; 22
        dw      00040h,00000h,072A4h,00103h,082C7h,0718Fh,08F97h,0EF8Eh
        dw      0003Fh,00000h,00000h,00000h,00000h,00000h,00000h,00000h
        dw      00000h,00000h,000FFh,00000h,0FFFFh,0FFFFh,0FFD7h,00000h
        db      010h,0B5h,08Ch,0EEh
        db      'STA,LDA$'                                  ; 23
        dw      00332h,00001h,0FD68h,0B543h,00653h,0CDBAh,04FD2h,01FD8h
        dw      00008h,00000h,00000h,00000h,00000h,00000h,00000h,00000h
        dw      00000h,00000h,000FFh,00000h,00000h,00000h,0FFD7h,00000h
        db      0EDh,057h,0AFh,072h
        db      'RLC,RRC,RAL,RAR$'                          ; 24
        dw      00007h,00000h,0CB92h,0C284h,00C53h,0F50Eh,0EB91h,040FCh
        dw      00018h,00000h,00000h,00000h,00000h,00000h,0FF00h,00000h
        dw      00000h,00000h,00000h,00000h,00000h,00000h,000D7h,00000h
        db      0E0h,0D8h,092h,035h
        db      'STAX B,D$'                                 ; 25
        dw      00002h,00000h,00C3Bh,0959Eh,00103h,00104h,021C1h,0BDE7h
        dw      00018h,00000h,00000h,00000h,00000h,00000h,00000h,00000h
        dw      00000h,00000h,0FFFFh,00000h,00000h,00000h,0FF00h,00000h
        db      02Bh,004h,071h,0E9h
        end
