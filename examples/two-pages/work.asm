; Bank 2 of page 8. It begins with the same words as bank 1, up to the word that activates it.
        CON 00C
        CON 004
        ENTRY :MAIN.DBL
        ENTRY :X1000
        ENTRY :DIGITS
        ENTRY :SWAP
        CON 000
        CON 000

        NAME "DBL"
DBL:    ENBANK2
        JNC :DOUBLE
BACK:   ENBANK1         ; the next word is read in bank 1
        NOP

DOUBLE: C=0 ALL         ; adds the mantissa of X to itself
        RAM SLCT
        READ :X
        A=C M
        SETDEC
        A=A+C M
        JC :CARRY
        A<>C M
        JNC :DONE
CARRY:  A<>C M          ; one digit more: the others move one place right
        RSHFC M
        R= 12
        LD@R 1
        C=C+1 S&X
DONE:   SETHEX
        WRIT :X
        ?NC GO :BACK
