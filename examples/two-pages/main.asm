; Bank 1 of page 8: the table of the module, and its functions. Their subroutines are in LIB, page 9.
        CON 00C         ; module 12
        CON 004         ; four functions
        ENTRY :DBL
        ENTRY :X1000
        ENTRY :DIGITS
        ENTRY :SWAP
        CON 000
        CON 000

        NAME "DBL"      ; doubles X, in bank 2
DBL:    ENBANK2         ; the next word is read in bank 2
        NOP
        NOP
        RTN             ; after ENBANK1 of bank 2

        NAME "X1000"    ; multiplies X by 1000
X1000:  C=0 ALL
        RAM SLCT
        R= 2            ; the pointer counts 2, 1, 0
AGAIN:  ?NC XQ :X10
        R=R-1
        ?R= 13          ; below 0 comes 13
        JNC :AGAIN
        RTN

        NAME "DIGITS"   ; puts the sum of the digits of X's mantissa into X
DIGITS: C=0 ALL
        RAM SLCT
        READ :X
        ?NC XQ :SUM10
        ?NC XQ :NUMBER
        WRIT :X
        RTN

        NAME "SWAP"     ; exchanges X and L
SWAP:   C=0 ALL
        RAM SLCT
        READ :X
        A=C ALL
        READ :L
        A<>C ALL
        WRIT :L
        A<>C ALL
        WRIT :X
        RTN
