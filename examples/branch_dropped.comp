; The same, but a branch that is still in decode is left out.
(completion
 ; write back
 (let done5 bool (and v5 (not (is_store i5)) (not (is_branch i5))))
 (let rf_after5 memory (ite done5 (write rf (rd i5) x5) rf))
 ; memory
 (let done4 bool (and v4 (not (is_store i4)) (not (is_branch i4))))
 (let rf_after4 memory (ite done4 (write rf_after5 (rd i4) (ite (is_load i4) (read data x4) x4)) rf_after5))
 (let data_after4 memory (ite (and v4 (is_store i4)) (write data x4 b4) data))
 ; execute: operands that the two stages before it give, else those that were read
 (let first3 word (ite (and done4 (= (rd i4) (rs1 i3))) x4 (ite (and done5 (= (rd i5) (rs1 i3))) x5 a3)))
 (let second3 word (ite (and done4 (= (rd i4) (rs2 i3))) x4 (ite (and done5 (= (rd i5) (rs2 i3))) x5 b3)))
 (let result3 word (alu (op i3) first3 (ite (has_imm i3) (imm i3) second3)))
 (let taken3 bool (and v3 (is_branch i3) (takes (op i3) first3)))
 (let done3 bool (and v3 (not (is_store i3)) (not (is_branch i3))))
 (let rf_after3 memory
  (ite done3 (write rf_after4 (rd i3) (ite (is_load i3) (read data_after4 result3) result3)) rf_after4))
 (let data_after3 memory (ite (and v3 (is_store i3)) (write data_after4 result3 second3) data_after4))
 ; decode: it runs unless a branch was taken, and reads what the others leave
 (let runs2 bool (and v2 (not taken3)))
 (let first2 word (read rf_after3 (rs1 i2)))
 (let second2 word (read rf_after3 (rs2 i2)))
 (let result2 word (alu (op i2) first2 (ite (has_imm i2) (imm i2) second2)))
 (let done2 bool (and runs2 (not (is_store i2)) (not (is_branch i2))))

 (abstract pc (ite taken3 (target pc3 (imm i3)) pc))
 (abstract rf (ite done2 (write rf_after3 (rd i2) (ite (is_load i2) (read data_after3 result2) result2)) rf_after3))
 (abstract data (ite (and runs2 (is_store i2)) (write data_after3 result2 second2) data_after3)))
