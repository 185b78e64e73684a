-- The five programs of bench/machine in Lua: a list is a pair of head and rest, and nil is the empty one.
-- Usage: lua5.4 works.lua WORK ROUNDS; prints a number of the answer.
local work, rounds = arg[1], tonumber(arg[2])

local function dup(l)
  if not l then return nil end
  local r = dup(l[2])
  return {l[1], {l[1], r}}
end

local function insert(x, l)
  if not l then return {x, nil} end
  if x <= l[1] then return {x, l} end
  l[2] = insert(x, l[2])
  return l
end

local function sort(l)
  if not l then return nil end
  return insert(l[1], sort(l[2]))
end

local function loop(n)
  if n == 0 then return 0 end
  return loop(n - 1)
end

local function down(n)
  if n == 0 then return 0 end
  return 1 + down(n - 1)
end

local function put(x, t)
  if not t then return {nil, x, nil} end
  if x <= t[2] then t[1] = put(x, t[1]) else t[3] = put(x, t[3]) end
  return t
end

local function build(l, t)
  if not l then return t end
  return build(l[2], put(l[1], t))
end

local function flat(t, acc)
  if not t then return acc end
  return flat(t[1], {t[2], flat(t[3], acc)})
end

local function list(count, item)
  local l = nil
  for i = count, 1, -1 do l = {item(i), l} end
  return l
end

local function up(i) return i end
local function under(i) return 1001 - i end
local random = {}
local x = 12345
for i = 1, 10000 do
  x = (x * 1103515245 + 12345) & 0xffffffff
  random[i] = (x >= 0x80000000 and x - 0x100000000 or x) >> 2
  if x >= 0x80000000 then random[i] = random[i] - (1 << 62) end
end

local answer
for _ = 1, rounds do
  if work == 'dup' then
    for i = 1, 4096 do
      local l = dup(list(37 * i % 1000, up))
      answer = 0
      while l do answer = answer + 1; l = l[2] end
    end
  elseif work == 'isort' then answer = sort(list(1000, under))[1]
  elseif work == 'loop' then answer = loop(100000000)
  elseif work == 'down' then
    for _ = 1, 100 do answer = down(65536) end
  elseif work == 'tree' then
      answer = flat(build(list(10000, function(i) return random[i] end), nil), nil)[1]
  end
end
print(answer)
