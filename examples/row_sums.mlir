func.func @row_sums(%a: tensor<8x16xi32>, %from: index) -> tensor<4xi32> {
  %out = arith.constant dense<[0, 0, 0, 1]> : tensor<4xi32>
  %rows = tensor.extract_slice %a[%from, 0] [4, 16] [1, 1] : tensor<8x16xi32> to tensor<4x16xi32>
  %sums = linalg.generic {
    indexing_maps = [affine_map<(d0, d1) -> (d0, d1)>, affine_map<(d0, d1) -> (d0)>],
    iterator_types = ["parallel", "reduction"]
  } ins(%rows : tensor<4x16xi32>) outs(%out : tensor<4xi32>) {
  ^bb0(%x: i32, %sum: i32):
    %next = arith.addi %sum, %x : i32
    linalg.yield %next : i32
  } -> tensor<4xi32>
  return %sums : tensor<4xi32>
}
