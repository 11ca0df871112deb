; Module 12, with one function, which has a mistake. docs/DEBUGGING.md finds it.
        CON 00C             ; its number
        CON 001             ; how many functions it has
        ENTRY :DSUM
        CON 000
        CON 000

        NAME "DSUM"         ; adds up the digits of X's mantissa
DSUM:   C=0 ALL
        RAM SLCT
        READ 3              ; C is X
        A=C ALL
        C=0 ALL             ; the sum will be in places 1 and 0
        SETDEC
        R= 12               ; the first digit of the mantissa
DIGIT:  ?A#0 @R             ; counts the digit down,
        JNC :NEXT
        A=A-1 @R
        C=C+1 S&X           ; and the sum up
        JNC :DIGIT
NEXT:   R=R-1               ; the next digit,
        ?R= 1               ; up to the last
        JNC :DIGIT
        RCR 3               ; the sum goes to places 12 and 11
        R= 12
        ?C#0 @R
        JC :TENS
        RCR 13              ; a sum of one digit goes to place 12
        JNC :PUT
TENS:   C=C+1 S&X           ; one of two digits has the exponent 1
PUT:    WRIT 3              ; X
        SETHEX
        RTN
