-- The same as pipeline.occ: a stage is a coroutine, which asks the one before it.

local stages, numbers = 32, 400000
local yield, wrap = coroutine.yield, coroutine.wrap

local function stage(left, number)
  return wrap(function()
    for i = 1, numbers do
      yield(left() + number)
    end
  end)
end

local from = wrap(function()
  for i = 0, numbers - 1 do
    yield(i)
  end
end)
for k = 0, stages - 1 do
  from = stage(from, k)
end
local sum = 0
for i = 1, numbers do
  sum = sum + from()
end
print(sum & 0xFFFFFFFF)
