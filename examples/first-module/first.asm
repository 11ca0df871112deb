; Module 11, with two functions.
        CON 00B         ; its number
        CON 002         ; how many functions it has
        ENTRY :FIVE
        ENTRY :X1000
        CON 000
        CON 000

        NAME "FIVE"     ; puts 5 into X
FIVE:   C=0 ALL
        RAM SLCT        ; the registers from 000 on
        R= 12           ; the first digit of the mantissa
        LD@R 5
        WRIT 3          ; register 3 is X
        RTN

        NAME "X1000"    ; multiplies X by 1000
X1000:  C=0 ALL
        RAM SLCT
        R= 2            ; the pointer counts 2, 1, 0
AGAIN:  ?NC XQ :X10
        R=R-1
        ?R= 13          ; the pointer after 0 is 13
        JNC :AGAIN
        RTN

X10:    READ 3          ; multiplies X by 10
        ?C#0 M
        ?NC RTN         ; zero stays zero
        SETDEC          ; exponents count in base 10
        C=C+1 S&X
        SETHEX
        WRIT 3
        RTN
