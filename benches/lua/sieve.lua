-- The same as sieve.occ.

local most, rounds = 8190, 800
local struck, count = {}, 0
for round = 1, rounds do
  for n = 0, most do
    struck[n] = 0
  end
  for p = 2, 90 do
    if struck[p] == 0 then
      for k = 2, 4095 do
        local multiple = p * k
        if multiple <= most then
          struck[multiple] = 1
        end
      end
    end
  end
  count = 0
  for n = 2, most do
    if struck[n] == 0 then
      count = count + 1
    end
  end
end
print(count)
