-- Tests of the module, and profiles as users write them. The last line says how many tests passed.
local digribbon = require "digribbon"
local testing = require "testing"
local pack, pack_tray, unpack = digribbon.pack, digribbon.pack_tray, digribbon.unpack
local packsize, packsize_range = digribbon.packsize, digribbon.packsize_range
local day_number, date, last_day = digribbon.day_number, digribbon.date, digribbon.last_day

local passed = 0
local function test(name, body)
    local ok, trace = xpcall(body, function(e) return debug.traceback(tostring(e), 2) end)
    if not ok then
        io.stderr:write("FAILED: ", name, "\n", trace, "\n")
        os.exit(1, true)
    end
    passed = passed + 1
end

local function same(expected, ...)
    local given = table.pack(...)
    assert(#expected == given.n, ("%d values, not %d"):format(given.n, #expected))
    for i, value in ipairs(expected) do
        if given[i] ~= value or math.type(given[i]) ~= math.type(value) then
            error(("value %d is %q, not %q"):format(i, given[i], value), 2)
        end
    end
end

-- The call is refused with this number.
local function refused(number, call, ...)
    local ok, refusal = pcall(call, ...)
    assert(not ok, "the call was accepted")
    assert(type(refusal) == "table", tostring(refusal))
    assert(refusal.number == number, tostring(refusal))
    return refusal
end

-- The call raises an error of Lua's own.
local function failed(message, call, ...)
    local ok, err = pcall(call, ...)
    assert(not ok and type(err) == "string" and err:find(message, 1, true), tostring(err))
end

---- the functions

test("pack", function()
    same({ "" }, pack(""))
    same({ "\xFE\xFF\xFF" }, pack("<i3", -2))
    same({ "\1\2" }, pack(">I2", 258))
    same({ "\1\0\0\0\2\0\0\0" }, pack("<!4 b i", 1, 2))
    same({ "\1" .. ("\0"):rep(13) .. "\xF0\x3F" }, pack("<!8bn", 1, 1.0))
    same({ "\xC8" }, pack("b", 200))
    same({ "\2AB" }, pack("<s1", "AB"))
    same({ "\1\0\0\0\1\0\0\0A" }, pack("<!4bs4", 1, "A"))
    same({ "\1\1A" }, pack("<!4bs1", 1, "A"))
    same({ "AB\0" }, pack("c3", "AB"))
    same({ ("\xFF"):rep(8) }, pack("<T", -0.5))
    same({ "\0\0\x80\x5D" }, pack("<f", 1152921573326323713))
    same({ "\1\0\0\0" }, pack("<!4bXi", 1))
    same({ "\1" }, pack("b", 1, "left over", nil, {}, print))
    same({ ("\0"):rep(7) .. "\x80" }, pack("<d", -0.0))
end)

test("packsize", function()
    same({ 16 }, packsize("<!8bn"))
    same({ 3 }, packsize("!2i3"))
    same({ math.maxinteger }, packsize("c9223372036854775807"))
end)

test("packsize_range", function()
    same({ 1, 21 }, packsize_range("z", { { 0, 20 } }))
    same({ 1, 65536 }, packsize_range("z", { { 0, 65535 } }))
    same({ 2, 257 }, packsize_range("z", { { 1, 256 } }))
    same({ 1, 256 }, packsize_range("s1", { { 0, 255 } }))
    same({ 8, 9 }, packsize_range("<!4 b s4", { { 0, 1 } }))
    same({ 8, 8 }, packsize_range("!4 z i", { { 0, 3 } }))
    same({ 8, 12 }, packsize_range("!4 z i", { { 0, 4 } }))
    same({ 13, 24 }, packsize_range("zs1", { { 1, 2 }, { 10, 20 } }))
    same({ 2, 513 }, packsize_range("zs1", { { 0, 256 }, { 0, 255 } }))
    same({ 4, 7 }, packsize_range("!2 s2 s2", { { 0, 1 }, { 0, 1 } }))
    same({ 16, 16 }, packsize_range("<!8bn", {}))
    same({ 1, 1 }, packsize_range("b", { { 5, 1 } }))
    same({ math.maxinteger, math.maxinteger }, packsize_range("c9223372036854775806z", { { 0, 0 } }))
    same({ 3, 23 }, packsize_range("zx", { { 1.0, "21" } }, "ignored"))
    same({ 2, 3 }, packsize_range("zx", { { 0, 1, 2, n = 1 }, name = {} }))
end)

test("unpack", function()
    same({ -2, 4 }, unpack("<i3", "\xFE\xFF\xFF"))
    same({ -56, 2 }, unpack("b", "\xC8"))
    same({ -1, 10 }, unpack("<I9", ("\xFF"):rep(8) .. "\0"))
    same({ "AB", "C", 6 }, unpack("s1 z", "\2ABC\0"))
    same({ 1, "A", 10 }, unpack("<!4bs4", "\1\7\8\9\1\0\0\0A"))
    same({ 1.5, 5 }, unpack("<f", "\0\0\xC0\x3F"))
    same({ 2, 3 }, unpack("b", "\1\2", -1))
    same({ 2, 3 }, unpack("b", "\1\2", 2))
    same({ 2 }, unpack("", "\1", 2))
    same({ math.mininteger, 9 }, unpack(">j", "\x80" .. ("\0"):rep(7)))
end)

test("writer", function()
    local writer = digribbon.writer()
    same({ "\1", 1, 3 }, writer:pack("<!4 b", 1, "next"))
    same({ "<", 4, 1 }, writer:state())
    same({ "\0\0\0\2\0\0\0", 1, 1 }, writer:pack("i", 2))
    same({ "", 0, 1 }, writer:pack(">"))
    same({ ">", 4, 8 }, writer:state())
    local other = digribbon.writer(writer:state())
    same({ "A\0", 1, 1 }, writer:pack("z", "A"))
    same({ "\0\0\0\0\0\1B", 1, 1 }, writer:pack("s4", "B"))
    same({ "\0\0\0\7", 1, 1 }, other:pack("i", 7))
    same({ "<", 1, 0 }, digribbon.writer():state())
end)

test("writer: parts give the whole", function()
    local values = { 1, 2, "AB", 3, "C", 4, 5 }
    local parts, writer, used = {}, digribbon.writer(), 0
    for _, format in ipairs { "<!4 b", "Xi4", "", "i >", "s1 h", " z j" } do
        local bytes, taken = writer:pack(format, table.unpack(values, used + 1))
        parts[#parts + 1], used = bytes, used + taken
    end
    same({ pack("<!4 b Xi4 i > s1 h z j", table.unpack(values)) }, table.concat(parts))
    same({ 6 }, used)
end)

test("pack_tray", function()
    same({ "\1\0\2\0\3\0\4\0" }, pack_tray("<!2 b h", { { 1, 2 }, { 3, 4 } }))
    same({ "\1\0\2\0\3\4\0\5\0\6" }, pack_tray("<!2 b h b", { { 1, 2, 3 }, { 4, 5, 6 } }))
    same({ "\2\1\1\2\1\0\0\1" }, pack_tray("I2 > I2", { { 258, 258 }, { 1, 1 } }))
    same({ "\1A\0\2BC" }, pack_tray("s1", { { "A" }, { "" }, { "BC" } }))
    same({ "\7\1" }, pack_tray("b", { { 7, "left over", {}, print }, { 1.0 } }, "ignored"))
    same({ "\0\0\0" }, pack_tray("x", { {}, {}, {} }))
    same({ "" }, pack_tray("", { {}, { 1 } }))
    for _, format in ipairs { "", "b", "q", "c", "!3", "c9223372036854775807 b" } do
        same({ "" }, pack_tray(format, {}))
    end
end)

-- What a call gives as docs/FORMAT.md shows it.
local function shown(ok, first, ...)
    if not ok then
        return ("refused %d"):format(first.number) .. (first.record and (", record %d"):format(first.record) or "")
    elseif type(first) == "number" then
        return table.concat({ first, ... }, ", ")
    end
    local bytes = first:gsub(".", function(c) return (" %02X"):format(c:byte()) end)
    return bytes == "" and "no bytes" or bytes:sub(2)
end

test("the examples of docs/FORMAT.md that stand between fences", function()
    local page <close> = assert(io.open("../../docs/FORMAT.md"))
    local counts = { packsize_range = 0, pack_tray = 0, day_number = 0, date = 0, last_day = 0 }
    for line in page:lines() do
        local call, name, expected = line:match("^(([%a_]+)%(.*%)) +%-%-> (.*)$")
        if call then
            local given = shown(pcall(assert(load("return " .. call, call, "t", digribbon))))
            assert(given == expected, ("%s gives %s"):format(call, given))
            counts[name] = counts[name] + 1
        end
    end
    same({ 17, 5 }, counts.packsize_range, counts.pack_tray)
    same({ 11, 5, 11 }, counts.day_number, counts.date, counts.last_day)
end)

test("pack_tray: the values of a table go by n, else by its length", function()
    same({ "\1\2" }, pack_tray("b", { table.pack(1), table.pack(2, nil, 3) }))
    assert(refused(12, pack_tray, "bb", { table.pack(1, nil) }).value == 2)
    assert(refused(12, pack_tray, "bb", { { n = 2, 1 } }).value == 2)
    assert(refused(11, pack_tray, "bb", { { n = 1, 1, 2 } }).value == 2)
    assert(refused(11, pack_tray, "bb", { { 1, nil } }).value == 2)
    same({ "\1" }, pack_tray("b", { { n = 1.0, 1 } }))
    same({ "\1" }, pack_tray("b", { { n = math.maxinteger, 1 } }))
    local proxy = setmetatable({}, { __index = { 1, 2, n = 2 }, __len = function() return 2 end })
    assert(refused(11, pack_tray, "b", { proxy }).value == 1)
    same({ "" }, pack_tray("b", proxy))
end)

---- dates

local function month_length(year, month)
    local is_leap = year % 4 == 0 and (year % 100 ~= 0 or year % 400 == 0)
    return month == 2 and is_leap and 29 or ({ 31, 28, 31, 30, 31, 30, 31, 31, 30, 31, 30, 31 })[month]
end

test("every day there and back", function()
    local year, month, day = 2000, 1, 1
    for number = 0, 65535 do
        same({ number }, day_number(year, month, day))
        same({ year, month, day }, date(number))
        day = day + 1
        if day > month_length(year, month) then month, day = month + 1, 1 end
        if month > 12 then year, month = year + 1, 1 end
    end
    same({ 2179, 6, 7 }, year, month, day)
end)

-- The first day's number of each month, counted up from January 2000 on, which is month 0.
local function count_months()
    local starts = { [0] = 0 }
    for month = 0, 180 * 12 + 12 do
        starts[month + 1] = starts[month] + month_length(2000 + month // 12, month % 12 + 1)
    end
    return starts
end

test("last days are as counted by months", function()
    local starts, late = count_months(), 0
    for first = 0, 65535 do
        local year, month, day = date(first)
        local months = first % 12 + 1
        local end_month = (year - 2000) * 12 + month - 1 + months
        local start, next_start = starts[end_month], starts[end_month + 1]
        local last = day <= next_start - start and start + day - 1 - 1 or next_start - 1
        if last <= 65535 then
            same({ last }, last_day(first, months))
        else
            refused(25, last_day, first, months)
            late = late + 1
        end
    end
    assert(late > 100, late)
end)

test("dates: what is taken for a number", function()
    same({ 8796 }, day_number(2024.0, 1.0, 31.0))
    same({ 2024, 1, 31 }, date(8796.0))
    same({ 8825 }, last_day(8796.0, "1"))
    same({ 8796 }, day_number(2024, 1, 31, "ignored"))
    failed("bad argument #2 to 'digribbon.day_number' (number has no integer representation)", day_number, 2024, 1.5, 31)
    failed("bad argument #3 to 'digribbon.day_number' (number expected, got no value)", day_number, 2024, 1)
    failed("bad argument #1 to 'digribbon.date' (number expected, got nil)", date, nil)
    failed("bad argument #1 to 'digribbon.date' (number has no integer representation)", date, 2.0 ^ 63)
    failed("bad argument #1 to 'digribbon.last_day' (number expected, got string)", last_day, "first", {})
    failed("bad argument #2 to 'digribbon.last_day' (number expected, got table)", last_day, 0, {})
end)

---- refusals

test("every refusal of dates, in the order 26, 24, 25", function()
    local least, greatest = math.mininteger, math.maxinteger
    for _, months in ipairs { least, -1, 0, 13, (1 << 32) + 1, greatest } do
        for _, first in ipairs { least, -1, 0, 65535, 65536, greatest } do refused(26, last_day, first, months) end
    end
    for _, day in ipairs { least, -1 } do
        refused(24, date, day)
        refused(24, last_day, day, 12)
    end
    for _, day in ipairs { 65536, (1 << 32) + 1, greatest } do
        refused(25, date, day)
        refused(25, last_day, day, 1)
    end
    for _, other in ipairs { least, -1, 0, 2000, greatest } do
        refused(24, day_number, other, 13, 1)
        refused(24, day_number, other, 1, 0)
        refused(24, day_number, 1999, other, other)
        refused(24, day_number, 2024, 2, other)
    end
    refused(24, day_number, greatest, 2, 29)
    refused(25, day_number, greatest, 2, 28)
    refused(25, day_number, greatest - 3, 2, 29)
end)

test("every refusal of formats, values and data", function()
    local formats = { "q", "c18446744073709551616", "i17", "!17", "!3", "!4i3", "Xz", "c", "c9223372036854775807b", "z" }
    for number, format in ipairs(formats) do
        refused(number, packsize, format)
    end
    refused(6, pack, "!4s3", "A")
    refused(6, unpack, "!4s3", "\1\0\0A")
    refused(11, pack, "b")
    refused(12, pack, "b", "1")
    refused(12, pack, "z", 1)
    refused(12, pack, "b", nil)
    refused(12, pack, "i4", 2.5)
    refused(13, pack, "i1", 200)
    refused(14, pack, "z", "A\0")
    refused(15, pack, "c1", "AB")
    refused(16, unpack, "", "A", 0)
    refused(16, unpack, "", "A", math.mininteger)
    refused(17, unpack, "b", "A", 2)
    refused(17, unpack, "bq", "")
    refused(18, unpack, "<i9", ("\xFF"):rep(8) .. "\0")
    refused(19, unpack, "z", "A")
    refused(20, unpack, "c65536", ("A"):rep(65536))
    refused(21, digribbon.writer, "<", 3)
    refused(21, digribbon.writer, "<", 1, -1)
end)

test("every refusal of packsize_range, in the order of its checks", function()
    local formats = { "q", "c18446744073709551616", "s17", "!17", "!3", "!4s3", "Xz", "c", "c9223372036854775807bq" }
    for number, format in ipairs(formats) do
        refused(number, packsize_range, format, {})
        refused(number, packsize_range, format, { { 0, 1 } })
        refused(number, packsize_range, format, { { 3, 2 } })
    end
    refused(11, packsize_range, "zq", {})
    refused(11, packsize_range, "c9223372036854775807z", {})
    refused(27, packsize_range, "zz", { { 256, 255 } })
    refused(27, packsize_range, "s1", { { 257, 256 } })
    refused(27, packsize_range, "c9223372036854775807z", { { 1, 0 } })
    refused(15, packsize_range, "c9223372036854775807s1", { { 0, 256 } })
    refused(9, packsize_range, "c9223372036854775806z", { { 0, 1 } })
    refused(1, packsize_range, "zq", { { 0, 0 } })
end)

test("packsize_range: a refusal names its pair", function()
    local function about(pair, number, format, lengths)
        local refusal = refused(number, packsize_range, format, lengths)
        assert(refusal.pair == pair and refusal.value == nil and refusal.record == nil, tostring(refusal))
    end
    about(1, 11, "z", {})
    about(2, 11, "zz", { { 0, 1 } })
    about(4, 11, "<!4 b z x s1 zz", { { 0, 9 }, { 0, 9 }, { 0, 9 } })
    about(1, 27, "z", { { 3, 2 } })
    about(2, 27, "zz", { { 0, 1 }, { 1, 0 } })
    about(2, 27, "zzz", { { 0, 1 }, { 1, 0 }, { 1, 0 }, { 0, 1 } })
    about(1, 15, "s1", { { 0, 256 } })
    about(2, 15, "zs1", { { 0, 255 }, { 0, 256 } })
    about(2, 15, "zs1zz", { { 0, 256 }, { 0, 256 }, { 1, 0 }, { 1, 0 }, { 0, 1 } })
    for number, format in ipairs { "q", "c18446744073709551616", "s17", "!17", "!3", "!4s3", "Xz", "c" } do
        about(nil, number, format, { { 3, 2 } })
        about(nil, number, "z" .. format, { { 0, 2 }, { 3, 2 } })
    end
    about(nil, 9, "c9223372036854775806z", { { 0, 1 }, { 1, 0 } })
end)

test("packsize_range: a refusal names its pair among many", function()
    local lengths = {}
    for count = 0, 299 do
        assert(refused(11, packsize_range, ("z"):rep(300), lengths).pair == count + 1)
        lengths[count + 1] = { 0, 1 }
    end
    for _, wrong in ipairs { 1, 2, 149, 150, 151, 256, 257, 299, 300 } do
        lengths[wrong] = { 1, 0 }
        assert(refused(27, packsize_range, ("z"):rep(300), lengths).pair == wrong)
        assert(refused(27, packsize_range, ("z"):rep(1000), lengths).pair == wrong)
        lengths[wrong] = { 0, 256 }
        assert(refused(15, packsize_range, ("s1x"):rep(wrong), lengths).pair == wrong)
        lengths[wrong] = { 0, 1 }
    end
end)

test("a refusal says number, sentence, cause, value and place", function()
    local refusal = refused(13, function() return (pack("<i2 i1", 7, 200)) end)
    assert(refusal.sentence == "An integer is out of its option's range.")
    assert(refusal.cause == "supplier of values" and refusal.value == 2)
    local place, message = tostring(refusal):match("^(test%.lua:%d+: )(.*)$")
    assert(place and message == "bad argument #3 to 'pack' (refusal 13: An integer is out of its option's range.)")
    refusal = refused(1, packsize, "q")
    assert(refusal.cause == "profile author" and refusal.value == nil)
    assert(refused(17, unpack, "b", "").cause == "card data")
    assert(refused(21, digribbon.writer, "<", 3).cause == "host program")
    refusal = refused(26, last_day, 0, 0)
    assert(refusal.cause == "supplier of values" and refusal.value == nil and refusal.record == nil)
    assert(tostring(refusal) == "bad argument #2 to 'last_day' (refusal 26: The months are outside 1 to 12.)")
    refusal = refused(27, packsize_range, "z", { { 3, 2 } })
    assert(refusal.cause == "supplier of values" and refusal.pair == 1)
    assert(tostring(refusal) ==
        "bad argument #2 to 'packsize_range' (refusal 27 at pair 1: A least text length is above its greatest.)")
    refusal = refused(8, packsize_range, "zc", { { 2, 3 } })
    assert(tostring(refusal) == "bad argument #1 to 'packsize_range' (refusal 8: c has no numeral.)")
    assert(refused(11, pack, "b").pair == nil and refused(11, pack_tray, "b", { {} }).pair == nil)
end)

test("a refusal names its argument", function()
    local function about(argument, name, call, ...)
        local ok, refusal = pcall(call, ...)
        assert(not ok and tostring(refusal):find(("bad argument #%d to '%s'"):format(argument, name), 1, true), refusal)
    end
    about(1, "packsize", packsize, "z")
    about(1, "packsize_range", packsize_range, "!4s3", {})
    about(1, "packsize_range", packsize_range, "c9223372036854775807z", { { 0, 0 } })
    about(2, "packsize_range", packsize_range, "z", {})
    about(2, "packsize_range", packsize_range, "s1", { { 0, 256 } })
    about(2, "packsize_range", packsize_range, "z", { { 3, 2 } })
    about(1, "pack", pack, "bq", 1)
    about(2, "pack", pack, "b")
    about(4, "pack", pack, "bzb", 1, "A")
    about(3, "pack", pack, "bz", 1, 2, "left over")
    about(3, "pack", pack, "zz", "A", "B\0", "C\0")
    about(1, "unpack", unpack, "!4i3", "ABC")
    about(2, "unpack", unpack, "bbq", "A")
    about(2, "unpack", unpack, "z", "A")
    about(3, "unpack", unpack, "b", "A", 3)
    about(2, "writer", digribbon.writer, "<", 5)
    about(3, "writer", digribbon.writer, "<", 4, -1)
    about(1, "day_number", day_number, 1999, 13, 0)
    about(2, "day_number", day_number, 2024, 13, 0)
    about(2, "day_number", day_number, 2300, 0, 0)
    about(3, "day_number", day_number, 2024, 2, 30)
    about(3, "day_number", day_number, 2300, 2, 30)
    about(1, "day_number", day_number, 2300, 1, 1)
    about(1, "date", date, 65536)
    about(1, "last_day", last_day, -1, 1)
    about(1, "last_day", last_day, 65535, 1)
    about(2, "last_day", last_day, -1, 13)
    local writer = digribbon.writer()
    about(3, "pack", function() writer:pack("bbi1", 1, 2 .. "") end)
    about(4, "pack", writer.pack, writer, "bbi1", 1, 2 .. "")
    about(1, "pack", function() writer:pack("q") end)
end)

test("pack_tray: the first refused record decides", function()
    local function about(record, value, number, format, lists)
        local refusal = refused(number, pack_tray, format, lists)
        assert(refusal.record == record and refusal.value == value, tostring(refusal))
    end
    about(1, nil, 1, "q", { {} })
    about(1, nil, 1, "b q", { { 1 }, {} })
    about(1, 1, 11, "b q", { {}, { 1 } })
    about(1, nil, 6, "!4 i3", { { 1 } })
    about(1, 1, 13, "i1", { { 200 }, { 1 }, { 2 } })
    about(2, 1, 13, "i1", { { 1 }, { 200 }, { 2 } })
    about(3, 1, 13, "i1", { { 1 }, { 2 }, { 200 } })
    about(2, 1, 13, "i1", { { 1 }, { 200 }, {} })
    about(2, 1, 11, "i1", { { 1 }, {}, { 200 } })
    about(2, 3, 12, "bbz", { { 1, 2, "A" }, { 3, 4, 5 } })
    about(2, 1, 14, "z", { { "A" }, { "A\0" } })
    about(1, 1, 15, "c0", { { "A" } })
    local text = { "A" }
    about(1, nil, 9, "c9223372036854775807 x", { text, text })
    about(4, 1, 12, "c9223372036854775807", { text, text, text, { 1 } })
end)

test("pack_tray: a refusal says number, sentence, cause, record, value and place", function()
    local refusal = refused(13, function() return (pack_tray("<i2 i1", { { 7, 8 }, { 7, 200 } })) end)
    assert(refusal.sentence == "An integer is out of its option's range.")
    assert(refusal.cause == "supplier of values" and refusal.record == 2 and refusal.value == 2)
    local place, message = tostring(refusal):match("^(test%.lua:%d+: )(.*)$")
    assert(place and message == "bad argument #2 to 'pack_tray' " ..
        "(refusal 13 at value 2 of record 2: An integer is out of its option's range.)")
    refusal = refused(5, pack_tray, "b !3", { { 1 } })
    assert(tostring(refusal) ==
        "bad argument #1 to 'pack_tray' (refusal 5 at record 1: The limit of ! is no power of two.)")
    assert(refusal.cause == "profile author" and refused(13, pack, "i1", 200).record == nil)
end)

test("pack_tray: errors that are no refusals", function()
    local long = ("A"):rep(65536)
    failed("bad argument #1 to 'digribbon.pack_tray' (string expected", pack_tray)
    failed("bad argument #2 to 'digribbon.pack_tray' (table expected, got no value)", pack_tray, "b")
    failed("bad argument #2 to 'digribbon.pack_tray' (record 2: table expected, got number)", pack_tray, "b", { {}, 7 })
    failed("(record 1: table expected, got nil)", pack_tray, "b", setmetatable({ nil, {} }, { __len = error }))
    for _, n in ipairs { -1, 1.5, "many", {}, true } do
        failed("(record 2: n is no count of values)", pack_tray, "b", { { 1 }, { n = n, 1 } })
    end
    failed("(value 2 of record 3: a text has at most 65,535 bytes)", pack_tray, "bz",
        { { 1, "A" }, { 2, "B" }, { 3, long } })
    refused(13, pack_tray, "i1z", { { 200, "A" }, { 1, long } })
    same({ "\1" }, pack_tray("b     ", { { 1, long } }))
    failed("memory", pack_tray, "c9223372036854775000z", { { "A", "B" } })
    for records, format in pairs { [3] = "c9223372036854775807", [4] = "c4611686018427387904" } do
        local lists = {}
        for i = 1, records do lists[i] = { "A" } end
        failed("memory", pack_tray, format, lists)
    end
end)

test("pack_tray: a list takes at most 65,535 bytes", function()
    local longest = { ("A"):rep(65529), "" }
    same({ longest[1] .. "\0" .. longest[1] .. "\0" }, pack_tray("z  ", { longest, longest }))
    longest[3] = ("B"):rep(60000)
    same({ longest[1] .. "\0" }, pack_tray("zx", { longest }):sub(1, -2))
    failed("bad argument #2 to 'digribbon.pack_tray' (record 2: the values take more than 65,535 bytes)", pack_tray,
        "i1 ", { { 200 }, longest })
end)

test("packsize_range: errors that are no refusals", function()
    local function wrong(message, ...)
        failed("bad argument #2 to 'digribbon.packsize_range' (" .. message .. ")", packsize_range, "z", ...)
    end
    failed("bad argument #1 to 'digribbon.packsize_range' (string expected", packsize_range)
    wrong("table expected, got no value")
    wrong("table expected, got number", 20)
    wrong("pair 1: table expected, got number", { 0, 20 })
    wrong("pair 2: table expected, got boolean", { { 0, 20 }, false })
    wrong("pair 1: table expected, got nil", setmetatable({ nil, {} }, { __len = error }))
    for _, length in ipairs { -1, 65536, math.mininteger, math.maxinteger, 1.5, 0 / 0, "many", {}, true } do
        wrong("pair 1: its least text length is no integer of 0 to 65,535", { { length, 20 } })
        wrong("pair 2: its greatest text length is no integer of 0 to 65,535", { { 0, 20 }, { 0, length } })
    end
    wrong("pair 1: its least text length is no integer of 0 to 65,535", { {} })
    wrong("pair 1: its greatest text length is no integer of 0 to 65,535", { { 0 } })
    local proxy = setmetatable({}, { __index = { 1, 2 }, __len = function() return 2 end })
    wrong("pair 1: its least text length is no integer of 0 to 65,535", { proxy })
    refused(11, packsize_range, "z", proxy)
end)

test("a refusal names its value among many", function()
    local values = {}
    for i = 1, 200 do values[i] = i end
    for _, wrong in ipairs { 1, 2, 99, 100, 101, 199, 200 } do
        values[wrong] = "text"
        assert(refused(12, pack, ("Bx"):rep(200), table.unpack(values)).value == wrong)
        values[wrong] = wrong
    end
    for count = 0, 20 do
        assert(refused(11, pack, ("B"):rep(21), table.unpack(values, 1, count)).value == count + 1)
    end
end)

test("a refusal leaves the writer as it was", function()
    local writer = digribbon.writer()
    writer:pack(">!4 b", 1)
    refused(13, writer.pack, writer, "<!8 i i1", 2, 200)
    same({ ">", 4, 1 }, writer:state())
end)

test("a finalizer that uses the writer loses no part", function()
    local writer, written, runs, over = digribbon.writer(), 0, 0, false
    local function write(...)
        local length = #writer:pack(...)
        written = written + length
    end
    local function arm()
        setmetatable({}, { __gc = function()
            if over then return end
            runs = runs + 1
            write("c7", "final")
            arm()
        end })
    end
    local pause, multiplier = collectgarbage("setpause", 0), collectgarbage("setstepmul", 1000)
    collectgarbage() -- so that the pause counts from now on
    arm()
    for i = 1, 400 do
        write("b z c9 s2", i, ("A"):rep(i * 10), "", ("B"):rep(i * 10))
        write("c3000", tostring(i))
    end
    over = true
    collectgarbage("setpause", pause)
    collectgarbage("setstepmul", multiplier)
    local _, _, length = writer:state()
    assert(runs > 100 and length == written, ("%d runs, %d written, %d counted"):format(runs, written, length))
end)

test("pack_tray: a finalizer may change the tables", function()
    local lists, runs, over, kinds = {}, 0, false, 0
    local function arm()
        setmetatable({}, { __gc = function()
            if over then return end
            runs = runs + 1
            for i = 1, #lists do lists[i][1] = ("B"):rep(runs % 7 * 300) end
            lists[#lists + 1] = runs % 3 == 0 and { "C" } or nil
            if runs % 5 == 0 then lists[2] = runs end
            arm()
        end })
    end
    local pause, multiplier = collectgarbage("setpause", 0), collectgarbage("setstepmul", 1000)
    collectgarbage() -- so that the pause counts from now on
    arm()
    for i = 1, 1000 do
        lists = { { ("A"):rep(i) }, { "" }, { ("A"):rep(900) } }
        local ok, tray = pcall(pack_tray, i % 2 == 0 and "z" or "z c2000 x", lists)
        if ok then
            assert(tray:find("^[ABC\0]*$"))
        else
            kinds = kinds + 1
            assert(type(tray) == "table" and tray.number == 11 or tostring(tray):find("record 2: table expected"), tray)
        end
    end
    over = true
    collectgarbage("setpause", pause)
    collectgarbage("setstepmul", multiplier)
    assert(runs > 100 and kinds > 0, ("%d runs, %d refusals"):format(runs, kinds))
end)

test("packsize_range: a finalizer may change the tables", function()
    local lengths, runs, calling, over, grown, wrong = {}, 0, false, false, 0, 0
    local format, pair = ("z"):rep(400), { 0, 1 }
    local function change()
        runs = runs + 1
        for i = #lengths, runs % 3 == 0 and 200 or #lengths + 1, -1 do lengths[i] = nil end
        for i = #lengths + 1, runs % 3 == 1 and 500 or 0 do lengths[i] = pair end
        if runs % 5 == 0 then lengths[2] = runs end
    end
    local function arm()
        setmetatable({}, { __gc = function()
            if over then return end
            if calling then change() end
            arm()
        end })
    end
    local pause, multiplier = collectgarbage("setpause", 0), collectgarbage("setstepmul", 1000)
    collectgarbage() -- so that the pause counts from now on
    arm()
    for _ = 1, 1000 do
        lengths = {}
        for i = 1, 300 do lengths[i] = pair end
        calling = true
        local ok, least, greatest = pcall(packsize_range, format, lengths)
        calling = false
        if ok then
            grown = grown + 1
            same({ 400, 800 }, least, greatest)
        elseif type(least) == "string" then
            wrong = wrong + 1
            assert(least:find("(pair 2: table expected, got number)", 1, true), least)
        else
            assert(least.number == 11 and (least.pair == 200 or least.pair == 301), least)
        end
    end
    over = true
    collectgarbage("setpause", pause)
    collectgarbage("setstepmul", multiplier)
    assert(runs > 100 and grown > 10 and wrong > 10, ("%d runs, %d grown, %d wrong"):format(runs, grown, wrong))
end)

test("what is taken for a text or a number", function()
    same({ "\1" }, pack("b", 1.0))
    refused(12, pack, "b", "1")
    refused(12, pack, "z", 1)
    refused(1, packsize, 8)
    same({ 56, 2 }, unpack("b", 8))
    same({ 2, 3 }, unpack("b", "\1\2", "2"))
    same({ 2, 3 }, unpack("b", "\1\2", 2.0))
    failed("number has no integer representation", unpack, "b", "\1\2", 1.5)
end)

test("errors that are no refusals", function()
    failed("bad argument #1 to 'digribbon.pack' (string expected", pack)
    failed("bad argument #2 to 'digribbon.unpack' (string expected", unpack, "b", {})
    failed("bad argument #3 to 'digribbon.unpack' (number expected", unpack, "b", "A", "first")
    failed("bad argument #3 to 'digribbon.pack' (a text has at most 65,535 bytes)", pack, "bz", 1, ("A"):rep(65536))
    same({ "\1" }, pack("b     ", 1, ("A"):rep(65536)))
    failed("invalid option '!'", digribbon.writer, "!")
    failed("digribbon.writer expected", digribbon.writer().pack, "b")
    failed("memory", pack, "c9223372036854775000z", "A", "B")
    refused(1, pack, "c9223372036854775000q", "A")
end)

---- sizes

test("long records and lists", function()
    same({ "A" .. ("\0"):rep(99999) }, pack("c100000", "A"))
    same({ "A" .. ("\0"):rep(99999) .. "B\0A\0" }, pack("c0100000zc2", "A", "B", "A"))
    same({ ("A"):rep(65535) .. "\0", 1, 1 }, digribbon.writer():pack("z", ("A"):rep(65535)))
    same({ ("\0"):rep(3000) }, pack(("x"):rep(3000)))
    local numbers = table.pack(unpack(("B"):rep(200), ("\7"):rep(200)))
    assert(numbers.n == 201 and numbers[200] == 7 and numbers[201] == 201)
    local texts = table.pack(unpack(("z"):rep(200), ("\0"):rep(200) .. ("A"):rep(70000)))
    assert(texts.n == 201 and texts[200] == "" and texts[201] == 201)
    same({ ("A"):rep(65535), 65538 }, unpack(">s2", "\xFF\xFF" .. ("A"):rep(65535)))
end)

test("too many results end as in Lua's own function", function()
    for _, count in ipairs { 999900, 999940, 999990, 1 << 21 } do
        local format, data = ("b"):rep(count), ("\1"):rep(count)
        local expected, first = pcall(string.unpack, format, data)
        local ok, given = pcall(unpack, format, data)
        same({ expected, first }, ok, given)
    end
end)

-- What a call gives where no block of more bytes can be had.
local function limited(longest, call, ...)
    testing.blocks(math.maxinteger, longest)
    local results = table.pack(pcall(call, ...))
    testing.blocks()
    return table.unpack(results, 1, results.n)
end

test("memory goes by what is needed", function()
    local data, values, writer = ("A"):rep(1 << 20), {}, digribbon.writer()
    for _, format in ipairs { "q", ("b"):rep(50) .. "q", "bi17", "z" } do
        local ok, refusal = limited(2000, unpack, format, data)
        assert(not ok and type(refusal) == "table", refusal)
    end
    same({ true, 65, 2 }, limited(2000, unpack, "b", data))
    same({ false, "not enough memory" }, limited(2000, unpack, "c3000", data))
    same({ false, "not enough memory" }, limited(2000, pack, "c3000", "A"))
    for i = 1, 10000 do values[i] = i end
    collectgarbage("stop") -- the first call makes Lua's stack as long as the second needs it
    for _, call in ipairs { pack, function(...) return (writer:pack(...)) end } do
        same({ true, "\1" }, limited(math.maxinteger, call, "b", table.unpack(values)))
        same({ true, "\1" }, limited(2000, call, "b", table.unpack(values)))
    end
    collectgarbage("restart")
end)

test("pack_tray: memory goes by what is needed, and a lack of it is Lua's error", function()
    local lists, expected = {}, {}
    for i = 1, 100 do
        lists[i] = { i, ("A"):rep(i) }
        expected[i] = pack("b c300 c200", i, ("A"):rep(i), "") -- longer than the lists
        lists[i][3] = ""
    end
    expected = table.concat(expected)
    same({ true, "\1\2" }, limited(1000, pack_tray, "b", { { 1 }, { 2 } }))
    same({ false, "not enough memory" }, limited(2000, pack_tray, "c1500", { { "A" }, { "B" } }))
    local tries, ok, tray = -1, nil, nil
    repeat
        tries = tries + 1
        testing.blocks(tries, math.maxinteger)
        ok, tray = pcall(pack_tray, "b c300 c200", lists)
        testing.blocks()
        assert(ok or tray == "not enough memory", tray)
    until ok
    assert(tray == expected and tries >= 3, tries) -- the run, the tray by two sums, the bytes as a string
end)

test("packsize_range: many pairs, and a lack of memory", function()
    local lengths, few = {}, {}
    for i = 1, 300 do lengths[i] = { i % 2, i } end
    for count = 250, 300 do -- the least sum up to half of them, the greatest to all numbers up to their count
        same({ count + (count + 1) // 2, count + count * (count + 1) // 2 }, packsize_range(("z"):rep(count), lengths))
    end
    for i = 1, 256 do few[i] = lengths[i] end
    same({ true, 2, 2 }, limited(1000, packsize_range, "z", few))
    same({ true, 2, 2 }, limited(2000, packsize_range, "z", lengths))
    same({ false, "not enough memory" }, limited(1000, packsize_range, "z", lengths))
end)

test("a lack of memory leaves the writer as it was", function()
    local long = ("A"):rep(2000)
    for _, format in ipairs { "b c9 z", "b c9000 z" } do
        local writer, tries, ok, part = digribbon.writer(), -1, nil, nil
        writer:pack(">b", 1)
        repeat
            tries = tries + 1
            testing.blocks(tries, math.maxinteger)
            ok, part = pcall(writer.pack, writer, format, 2, "A", long)
            testing.blocks()
            if not ok then
                assert(part == "not enough memory", part)
                same({ ">", 1, 1 }, writer:state())
            end
        until ok
        same({ ">", 1, 1 + #part }, writer:state())
        assert(tries >= 2, tries) -- the list, the record, the bytes as a string
    end
    local writer = digribbon.writer()
    failed("memory", writer.pack, writer, "b c9223372036854775000", 1, "A")
    same({ "<", 1, 0 }, writer:state())
end)

---- the float environment

-- Bits of the register MXCSR.
local DEFAULT, FLAGS = 0x1F80, 0x3F
local DOWN, UP, TO_ZERO = 0x2000, 0x4000, 0x6000
local DENORMALS_ARE_ZERO, FLUSH_TO_ZERO = 0x40, 0x8000
local ALL_TRAPS = -DEFAULT

test("the float environment has no influence, and stays", function()
    local expected = {
        { "<T", -0.5, ("\xFF"):rep(8) },
        { "<T", -5e-324, ("\xFF"):rep(8) },
        { "<T", 5e-324, ("\0"):rep(8) },
        { "<T", 1 / 0, ("\0"):rep(8) },
        { "<T", -1 / 0, ("\0"):rep(8) },
        { "<T", -1e300, string.pack("<d", 0) },
        { "<T", 2.5, "\2" .. ("\0"):rep(7) },
        { "<j", 5e-324, "\1" .. ("\0"):rep(7) },
        { "<i4", 5e-324, 12 },
        { "<f", 1152921573326323713, "\0\0\x80\x5D" },
        { "<f", 16777217.0, "\0\0\x80\x4B" },
        { "<d", 9007199254740993, "\0\0\0\0\0\0\x40\x43" },
        { "<i8", 2.0 ^ 53, "\0\0\0\0\0\0\x20\0" },
    }
    local others = { DOWN, UP, TO_ZERO, DENORMALS_ARE_ZERO, FLUSH_TO_ZERO, DENORMALS_ARE_ZERO + FLUSH_TO_ZERO + DOWN, ALL_TRAPS,
        ALL_TRAPS + UP }
    local writer = digribbon.writer()
    for _, other in ipairs(others) do
        for _, case in ipairs(expected) do
            local function tray(format, value) return pack_tray(format, { { value } }) end
            for _, call in ipairs { pack, tray, function(...) return (writer:pack(...)) end } do
                testing.environment(DEFAULT + other)
                local ok, given = pcall(call, case[1], case[2])
                local after = testing.environment(DEFAULT)
                assert(after & ~FLAGS == DEFAULT + other, "the environment is another after the call")
                same({ case[3] }, ok and given or given.number)
            end
        end
    end
end)

test("refusals keep no memory", function()
    local text = ("A"):rep(65535)
    collectgarbage()
    local before = collectgarbage("count")
    for _ = 1, 200 do
        refused(13, pack, "z i1", text, 200)
        refused(17, unpack, ("z"):rep(100) .. "b", ("A\0"):rep(100))
        refused(11, pack_tray, "z", { { text:sub(4) }, {} })
        failed("more than 65,535 bytes", pack_tray, "zz", { { text:sub(4) }, { text:sub(4), "" } })
    end
    collectgarbage()
    collectgarbage()
    assert(collectgarbage("count") < before + 100)
end)

test("pack_tray: the records are those of single calls", function()
    local items = { "b", "h", "i1", "I3", "j", "T", "d", "c5", "z", "s1", "x", "Xi4", "<", ">", "!4", " " }
    local values = { 0, 100, -1, 70000, 2.0, -0.5, "", "zone", "A\0B", ("t"):rep(300), false, math.mininteger }
    math.randomseed(7)
    local accepted, refusals = 0, 0
    for _ = 1, 3000 do
        local format, lists, expected = {}, {}, {}
        for i = 1, math.random(0, 5) do format[i] = items[math.random(#items)] end
        for i = 1, math.random(0, 6) do
            lists[i] = {}
            for _, item in ipairs(format) do
                local is_text, takes = item:find("^[czs]"), not item:find("^[xX<>! ]")
                local any = math.random(12) == 1
                if any or takes then
                    table.insert(lists[i], any and values[math.random(#values)] or is_text and "zone" or takes and 100)
                end
            end
        end
        local first, place
        for i, list in ipairs(lists) do
            local ok, record = pcall(pack, table.concat(format), table.unpack(list))
            if not ok then
                first, place = record, i
                break
            end
            expected[i] = record
        end
        local ok, tray = pcall(pack_tray, table.concat(format), lists)
        if first then
            refusals = refusals + 1
            same({ false, first.number, place }, ok, tray.number, tray.record)
            assert(first.value == tray.value)
        else
            accepted = accepted + 1
            same({ true, table.concat(expected) }, ok, tray)
        end
    end
    assert(accepted > 500 and refusals > 500, accepted)
end)

test("the version is that of the header and of the crate", function()
    local function found(file, pattern)
        local text <close> = assert(io.open(file))
        return text:read("a"):match(pattern)
    end
    same({ found("../include/digribbon.h", '#define DIGRIBBON_VERSION "([^"]*)"') }, digribbon._VERSION)
    for _, file in ipairs { "../rust/Cargo.toml", "../rust/Cargo.lock", "../../compare/Cargo.lock" } do
        same({ found(file, '\nname = "digribbon"\nversion = "([^"]*)"') }, digribbon._VERSION)
    end
end)

---- profiles

-- A card whose files change when the outermost transaction commits. A transaction that ends without commit changes
-- nothing.
local Transaction = {}
Transaction.__index = Transaction

local function begin(parent)
    return setmetatable({ parent = parent, files = {}, state = "open" }, Transaction)
end

function Transaction:begin() return begin(self) end

function Transaction:write(name, record)
    assert(self.state == "open", "the transaction is over")
    self.files[name] = record
end

function Transaction:commit()
    assert(self.state == "open", "the transaction is over")
    for name, record in pairs(self.files) do
        self.parent.files[name] = record
    end
    self.state = "committed"
end

function Transaction:__close()
    if self.state == "open" then self.state = "closed" end
end

test("profile: issue a pass", function()
    local card, holder, inner_state = { files = {} }, "<!4 I2 B c6", nil
    do
        local outer <close> = begin(card)
        outer:write("size", pack("<I2", packsize(holder)))
        outer:write("holder", pack(holder, 258, 7, "ANNA"))

        local ok, refusal = pcall(function()
            local inner <close> = outer:begin()
            inner_state = inner
            inner:write("valid", pack("<I2", 8796))
            inner:write("zone", pack("<i1", 200))
            inner:commit()
        end)
        assert(not ok and refusal.number == 13)
        assert(inner_state.state == "closed")

        assert(next(card.files) == nil)
        outer:commit()
        assert(outer.state == "committed")
    end
    same({ "\9\0" }, card.files.size)
    same({ "\2\1\7ANNA\0\0" }, card.files.holder)
    assert(card.files.zone == nil and card.files.valid == nil)
    same({ 258, 7, "ANNA\0\0", 10 }, unpack(holder, card.files.holder))
end)

test("profile: a refusal in the outer transaction leaves the card", function()
    local card, outer_state = { files = {} }, nil
    refused(15, function()
        local outer <close> = begin(card)
        outer_state = outer
        outer:write("holder", pack("<c6", "ANNA"))
        outer:write("name", pack("<c3", "ANNA"))
        outer:commit()
    end)
    assert(outer_state.state == "closed" and next(card.files) == nil)
end)

test("profile: a name that arrives late", function()
    local card = { files = {} }
    do
        local outer <close> = begin(card)
        local writer = digribbon.writer()
        local front = writer:pack("<!4 I2 B", 258, 7)
        do
            local inner <close> = outer:begin()
            refused(14, writer.pack, writer, "z", "AN\0NA")
        end
        local name = writer:pack("z", "ANNA")
        local tail = writer:pack("I4", 8796)
        outer:write("pass", front .. name .. tail)
        outer:commit()
    end
    same({ 258, 7, "ANNA", 8796, 13 }, unpack("<!4 I2 B z I4", card.files.pass))
end)

test("profile: a file for a name that arrives late", function()
    local pass, file = "<!4 I2 B z I4", nil
    local least, greatest = packsize_range(pass, { { 2, 20 } })
    same({ 12, 28 }, least, greatest)
    file = ("\0"):rep(greatest)
    for length = 2, 20 do
        local name = ("A"):rep(length)
        local record = pack(pass, 258, 7, name, 8796)
        assert(#record >= least and #record <= #file)
        same({ 258, 7, name, 8796, #record + 1 }, unpack(pass, record .. file:sub(#record + 1)))
    end
end)

test("profile: read what lies on a card, record by record", function()
    local data = pack(">I2I2B", 1, 10, 0) .. pack(">I2I2B", 2, 20, 1) .. "\0"
    local products, position = {}, 1
    local refusal = refused(17, function()
        while position <= #data do
            local product, issue, state, after = unpack(">I2I2B", data, position)
            products[product], position = { issue, state }, after
        end
    end)
    assert(refusal.cause == "card data" and position == 11)
    same({ 10, 0, 20, 1 }, products[1][1], products[1][2], products[2][1], products[2][2])
end)

test("profile: a tray of passes", function()
    local passes = { { 1, 10, 0 }, { 2, 20, 1 }, { 3, 70000, 1 } }
    local ok, refusal = pcall(pack_tray, ">I2I2B", passes)
    assert(not ok and refusal.number == 13 and refusal.record == 3 and refusal.value == 2)
    table.remove(passes, refusal.record)
    same({ "\0\1\0\10\0\0\2\0\20\1" }, pack_tray(">I2I2B", passes))
end)

test("profile: a pass of a month", function()
    local first = day_number(2024, 1, 31)
    local pass = pack(">I2 I2 c6", first, last_day(first, 1), "ANNA")
    local _, last, holder = unpack(">I2 I2 c6", pass)
    same({ 2024, 2, 29 }, date(last))
    same({ "ANNA\0\0" }, holder)
    assert(day_number(2024, 3, 1) > last)
end)

test("profile: in a coroutine", function()
    local issue = coroutine.wrap(function(number)
        local writer = digribbon.writer()
        while true do
            number = coroutine.yield((writer:pack(">I2", number)))
        end
    end)
    same({ "\1\2" }, issue(258))
    same({ "\1\3" }, issue(259))
    refused(13, issue, 65536)
end)

print(("%d tests passed in %s"):format(passed, _VERSION))
