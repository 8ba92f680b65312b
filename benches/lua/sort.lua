-- The same as sort.occ.

local count, rounds = 512, 120
local a, sum = {}, 0
for round = 0, rounds - 1 do
  local x = round
  for i = 0, count - 1 do
    x = (x * 75 + 74) & 0xFFFF
    a[i] = x
  end
  for i = 0, count - 2 do
    for j = 0, count - 2 do
      if a[j] > a[j + 1] then
        a[j], a[j + 1] = a[j + 1], a[j]
      end
    end
  end
  for i = 0, count - 1 do
    sum = sum + a[i] * i
  end
end
print(sum & 0xFFFFFFFF)
