; Adds the words of a table, and stores the sum in the word after the table.
        .base 0
        .size 17
        .final end
        .start begin
begin:  MOVE r1,(r15)+          ; r1: the address of the next word
        .word table
        MOVE r2,#0              ; r2: the sum so far
next:   ADD r2,(r1)+
        MOVE r3,r1
        SUB{z} r3,(r15)+        ; z: r1 has come to the end of the table
        .word sum
        MOVE[zc] r15,(r15)+     ; if not, once more
        .word next
        MOVE (r1),r2
end:    DEC r15,r15
table:  .word 3
        .word 1
        .word 4
        .word 1
        .word 5
sum:    .word 0
