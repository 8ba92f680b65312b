-- The same as matrix.occ.

local n, rounds = 64, 120
local a, b, c, total = {}, {}, {}, 0
for i = 0, n * n - 1 do
  a[i] = (i * 7919) & 0x3FF
  b[i] = (i * 104729) & 0x3FF
end
for round = 1, rounds do
  for i = 0, n - 1 do
    for j = 0, n - 1 do
      local sum = 0
      for k = 0, n - 1 do
        sum = sum + a[i * n + k] * b[k * n + j]
      end
      c[i * n + j] = sum
    end
  end
  for i = 0, n * n - 1 do
    total = total + c[i]
  end
end
print(total & 0xFFFFFFFF)
