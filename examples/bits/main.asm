; Bank 1 of page 8: functions on the digits of X and on ALPHA. Functions on bits are in bank 2, subroutines in page 9.
;
; Both banks begin with the same words, up to the jump of the last function. So a function can start whichever bank is
; active: its first instruction activates its own bank, and the jump after it is read there.
        CON 00D         ; module 13
        CON 00D         ; 13 functions
        ENTRY :AND
        ENTRY :OR
        ENTRY :XOR
        ENTRY :NOT
        ENTRY :SHL
        ENTRY :SHR
        ENTRY :BITS
        ENTRY :HEX
        ENTRY :HTOX
        ENTRY :DECODE
        ENTRY :MANT
        ENTRY :EXPO
        ENTRY :ALEN
        CON 000
        CON 000

        NAME "AND"
AND:    ENBANK2
        CON 000         ; bank 2 has a jump here, and in each of the next six functions
        CON 000
        NAME "OR"
OR:     ENBANK2
        CON 000
        CON 000
        NAME "XOR"
XOR:    ENBANK2
        CON 000
        CON 000
        NAME "NOT"
NOT:    ENBANK2
        CON 000
        CON 000
        NAME "SHL"
SHL:    ENBANK2
        CON 000
        CON 000
        NAME "SHR"
SHR:    ENBANK2
        CON 000
        CON 000
        NAME "BITS"
BITS:   ENBANK2
        CON 000
        CON 000
        NAME "HEX"
HEX:    ENBANK1
        ?NC GO :DOHEX
        NAME "HTOX"
HTOX:   ENBANK1
        ?NC GO :DOHTOX
        NAME "DECODE"
DECODE: ENBANK1
        ?NC GO :DODECODE
        NAME "MANT"
MANT:   ENBANK1
        ?NC GO :DOMANT
        NAME "EXPO"
EXPO:   ENBANK1
        ?NC GO :DOEXPO
        NAME "ALEN"
ALEN:   ENBANK1
        ?NC GO :DOALEN
        NOP             ; bank 2 activates bank 1 here
        RTN             ; and so its functions end here

; HEX: ALPHA = the whole number X in base 16, without zeros before it.
DOHEX:  C=0 ALL
        RAM SLCT
        READ :X
        ?NC XQ :WORD
        RCR 8           ; its first digit is at place 13
        N=C
        ?NC XQ :CLEARA
        SLCT Q          ; Q counts the digits 7, 6, .. 0
        R= 7
        SLCT P
        CLRF 8          ; no zeros before the first other digit
        ?NC GO :PRINT

; DECODE: ALPHA = the 14 digits of X.
DODECODE: C=0 ALL
        RAM SLCT
        READ :X
        N=C
        ?NC XQ :CLEARA
        SLCT Q
        R= 13
        SLCT P
        SETF 8          ; zeros too
        ?NC GO :PRINT

; HTOX: X = the number that ALPHA contains in base 16, up to eight digits. Lifts the stack.
DOHTOX: C=0 ALL
        RAM SLCT
        N=C             ; collects the digits
        READ 5          ; the last seven characters
        M=C
        SLCT Q          ; Q counts them
        R= 6
        SLCT P
SEVEN:  ?NC XQ :TAKE
        SLCT Q
        R=R-1
        ?R= 13
        JC :EIGHTH
        SLCT P
        JNC :SEVEN
EIGHTH: SLCT P
        READ 6
        M=C
        R= 1
        C=0 R<
        ?C#0 ALL        ; a ninth character
        JC :LONGER
        READ 7
        ?C#0 ALL
        JC :LONGER
        READ 8          ; only its right three bytes belong to ALPHA
        R= 5
        ?C#0 R<
        JC :LONGER
        ?NC XQ :TAKE
        C=N
        RCR 6           ; the last digit is at place 0
        ?NC XQ :DECIMAL
        ?NC XQ :NUMBER
        ?NC GO :PUSH
LONGER: ?NC GO :ERRDE

; MANT: X = the mantissa of X, from 1 to 9.999999999, with the sign of X.
DOMANT: C=0 ALL
        RAM SLCT
        READ :X
        ?NC XQ :NUMERIC
        WRIT :L
        C=0 S&X
        WRIT :X
        RTN

; EXPO: X = the exponent of X.
DOEXPO: C=0 ALL
        RAM SLCT
        READ :X
        ?NC XQ :NUMERIC
        WRIT :L
        CLRF 8          ; S8: the exponent is below zero
        C=0 M
        C=0 MS
        ?C#0 XS
        JNC :ABOVE
        SETF 8
        SETDEC
        C=0-C S&X
        SETHEX
ABOVE:  ?NC XQ :NUMBER
        ?FSET 8
        JNC :STORE
        R= 13
        LD@R 9
STORE:  WRIT :X
        RTN

; ALEN: X = the number of characters in ALPHA. Lifts the stack.
DOALEN: C=0 ALL
        RAM SLCT
        A=0 ALL
        R= 5
        READ 8          ; the first three characters
        A=C R<
        LDI 021         ; so many follow
        ?A#0 ALL
        JC :LENGTH
        READ 7
        A=C ALL
        LDI 014
        ?A#0 ALL
        JC :LENGTH
        READ 6
        A=C ALL
        LDI 007
        ?A#0 ALL
        JC :LENGTH
        READ 5
        A=C ALL
        LDI 000
LENGTH: C=0 M
        C=0 MS
        SETDEC
BYTE:   ?A#0 ALL        ; counts the bytes up to the first one
        JNC :LAST
        C=C+1 S&X
        RSHFA ALL
        RSHFA ALL
        JNC :BYTE
LAST:   SETHEX
        ?NC XQ :NUMBER
        ?NC GO :PUSH
