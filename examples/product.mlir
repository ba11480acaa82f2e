func.func @product(%a: tensor<4x?xi32>, %b: tensor<?x8xi32>) -> tensor<4x8xi32> {
  %zero = arith.constant 0 : i32
  %empty = tensor.empty() : tensor<4x8xi32>
  %out = linalg.fill ins(%zero : i32) outs(%empty : tensor<4x8xi32>) -> tensor<4x8xi32>
  %sum = linalg.matmul ins(%a, %b : tensor<4x?xi32>, tensor<?x8xi32>) outs(%out : tensor<4x8xi32>) -> tensor<4x8xi32>
  return %sum : tensor<4x8xi32>
}
