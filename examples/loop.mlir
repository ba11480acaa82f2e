func.func @u(%n: i32) -> i32 {
  %zero = arith.constant 0 : index
  %ten = arith.constant 10 : index
  %sum = scf.for %i = %zero to %ten step %ten iter_args(%acc = %n) -> (i32) {
    %k = arith.index_cast %i : index to i32
    %next = arith.addi %acc, %k : i32
    scf.yield %next : i32
  }
  return %sum : i32
}
