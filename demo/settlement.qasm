; A settlement program: meter readings in, events, a bill, a transfer and new totals out.
;
; Preload:  0  the utility's account, 32 bytes
;          32  number of readings, 1 to 24
;          40  the readings, 8 bytes each
; Slots:    1  the last reading settled
;           2  units billed so far
;           3  amount billed so far

.const first_block 100          ; units at the first price
.const price 25
.const price_above 40
.const most_readings 24

.entry sett start reads 1 2 3 writes 1 2 3

start:
        ldi   r10, 4096         ; a key's 32 bytes: 24 zeros and the slot
        ldi   r9, 4120          ; where the slot goes
        ldi   r8, 4160          ; an event's data
        ldi   r0, 8             ; a word's bytes

        ldi   r1, 32
        mload r2, r1            ; readings left
        jz    r2, bad_count
        ldc   r6, most_readings
        gtu   r7, r2, r6
        jnz   r7, bad_count

        ldi   r6, 1
        mstore r9, r6
        sload r3, r10           ; the last reading

interval:
        add   r1, r1, r0
        mload r7, r1            ; this reading
        sub   r11, r7, r3       ; its units: a reading below the one before faults with 2
        add   r4, r4, r11       ; units of the bill
        mov   r3, r7
        ldi   r6, 1
        add   r5, r5, r6        ; number of the interval

        mstore r8, r5           ; READ: interval, reading, units
        add   r12, r8, r0
        mstore r12, r7
        add   r12, r12, r0
        mstore r12, r11
        ldi   r13, 24
        ldi   r14, 'READ'
        emit  r8, r13, r14

        sub   r2, r2, r6
        jnz   r2, interval

        ldc   r6, first_block   ; the tariff: two blocks
        mov   r11, r4
        gtu   r7, r4, r6
        jz    r7, priced
        sub   r12, r4, r6
        mov   r11, r6
        ldc   r6, price_above
        mul   r15, r12, r6
priced:
        ldc   r6, price
        mul   r11, r11, r6
        add   r15, r15, r11     ; the amount

        ldi   r6, 1             ; totals
        mstore r9, r6
        sstore r10, r3
        ldi   r6, 2
        mov   r7, r4
        call  add_to_slot
        ldi   r6, 3
        mov   r7, r15
        call  add_to_slot

        mstore r8, r4           ; BILL: units, amount, last reading
        add   r12, r8, r0
        mstore r12, r15
        add   r12, r12, r0
        mstore r12, r3
        ldi   r14, 'BILL'
        emit  r8, r13, r14

        ldi   r1, 0             ; the amount goes to the utility's account
        ldi   r13, 32
        send  r1, r13, r15
        halt

add_to_slot:                    ; slot r6 grows by r7
        mstore r9, r6
        sload r12, r10
        add   r12, r12, r7
        sstore r10, r12
        ret

bad_count:                      ; division by zero: 3
        ldi   r6, 0
        div   r6, r6, r6
