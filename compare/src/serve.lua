-- Answers questions about string.packsize, string.pack and string.unpack; src/lua.rs says how both are laid out.
-- `module` is the module digribbon, or nil.
local pack, unpack = string.pack, string.unpack
local calls = {[0] = "packsize", "pack", "unpack"}
local MEASURING, WRITING = 0, 1

local batch, at -- the questions, and the position after what was read of them
local answers

local function take(form)
  local value
  value, at = unpack(form, batch, at)
  return value
end

local function put(form, ...)
  answers[#answers + 1] = pack(form, ...)
end

local function take_value()
  local tag = take("B")
  if tag == 1 then
    return take("<i8")
  elseif tag == 2 then
    return take("<d")
  elseif tag == 3 then
    return take("<s4")
  end
end

local function put_value(value)
  local kind = math.type(value)
  if kind == "integer" then
    put("<Bi8", 1, value)
  elseif kind == "float" then
    put("<Bd", 2, value)
  else
    put("<Bs4", 3, value)
  end
end

-- The arguments behind the format, as a table with their count.
local function take_arguments(call)
  if call == MEASURING then
    return {n = 0}
  elseif call == WRITING then
    local arguments = {n = take("<I4")}
    for i = 1, arguments.n do
      arguments[i] = take_value()
    end
    return arguments
  end
  return {n = 2, take("<s4"), take("<i8")}
end

local function run(library, call, format, arguments)
  return table.pack(pcall(library[calls[call]], format, table.unpack(arguments, 1, arguments.n)))
end

-- What an accepted call gave: results[1] is true, the last of a reading is the next position.
local function put_results(call, results)
  if call == MEASURING then
    put("<i8", results[2])
  elseif call == WRITING then
    put("<s4", results[2])
  else
    put("<i8I4", results[results.n], results.n - 2)
    for i = 2, results.n - 1 do
      put_value(results[i])
    end
  end
end

-- How far a front came, and how long the text is that it gave last; -1 where that is no text.
local function put_front(call, results)
  local text = results[results.n - 1]
  if call == MEASURING then
    put("<Bi8i4", 1, results[2], -1)
  elseif call == WRITING then
    put("<Bi8i4", 1, #results[2], -1)
  else
    put("<Bi8i4", 1, results[results.n] - 1, type(text) == "string" and #text or -1)
  end
end

-- Runs the fronts up to the first that is refused; whether all were accepted.
local function fronts(call, format, arguments, cuts)
  for _, cut in ipairs(cuts) do
    local results = run(string, call, format:sub(1, cut), arguments)
    if not results[1] then
      put("B", 0)
      return false
    end
    put_front(call, results)
  end
  return true
end

local function whole(call, format, arguments)
  local results = run(string, call, format, arguments)
  put("B", results[1] and 1 or 0)
  if results[1] then
    put_results(call, results)
  end
end

local function by_module(call, format, arguments)
  local results = run(module, call, format, arguments)
  if results[1] then
    put("B", 1)
    put_results(call, results)
  elseif type(results[2]) == "table" then
    put("<Bi8", 0, results[2].number)
  else
    put("<Bs4", 2, tostring(results[2]))
  end
end

local function answer()
  local call, runs, asks_module, format = take("B"), take("B"), take("B"), take("<s4")
  local cuts = {}
  for i = 1, take("<I4") do
    cuts[i] = take("<I4")
  end
  local arguments = take_arguments(call)
  if fronts(call, format, arguments, cuts) and runs == 0 then
    put("B", 2)
  else
    whole(call, format, arguments)
  end
  if asks_module == 1 then
    by_module(call, format, arguments)
  end
end

local function main()
  io.stdout:setvbuf("full")
  while true do
    local head = io.read(4)
    if not head then
      return
    end
    batch, at, answers = io.read((unpack("<I4", head))), 1, {}
    while at <= #batch do
      answer()
    end
    local text = table.concat(answers)
    io.write(pack("<I4", #text), text)
    io.flush()
  end
end

main()
