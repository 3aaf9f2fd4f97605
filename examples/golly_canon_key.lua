-- For Golly (File, Run Script): shows the key of the open pattern, and which files of a table of keys are that pattern.
--
-- It needs the program golly_canon, and a table that it has made, say by
--     golly_canon keys --form turned -r ~/patterns > ~/keys
-- These may be set before Golly is started: GOLLY_CANON, the program (if none is named, golly_canon on the PATH); GOLLY_CANON_KEYS, the table (the
-- file keys in the home folder); and GOLLY_CANON_FORM, the form of its keys (turned: in any place and direction; phases: an oscillator or a spaceship
-- in any phase too). A key says the generation too, except with phases, so a pattern that has run on is another one. If the table was made with --within MOST,
-- set GOLLY_CANON_WITHIN to MOST.

local g = golly()

local program = os.getenv("GOLLY_CANON") or "golly_canon"
local table_of_keys = os.getenv("GOLLY_CANON_KEYS") or (os.getenv("HOME") or "") .. "/keys"
local form = os.getenv("GOLLY_CANON_FORM") or "turned"
local within = os.getenv("GOLLY_CANON_WITHIN")

-- A word as a shell takes it.
local function quoted(word)
    return "'" .. word:gsub("'", "'\\''") .. "'"
end

-- Bytes as `\xHH` each.
local function hexadecimal(bytes)
    return (bytes:gsub(".", function(byte) return string.format("\\x%02x", byte:byte()) end))
end

-- A name as it is shown, so that it does nothing to the line that it is in: control characters, characters that turn the direction of text or end a line,
-- and bytes that are no UTF-8 text are written as `\xHH`, byte by byte. The table has escaped backslashes and ends of lines.
local function shown(name)
    local at, length = 1, utf8.len(name)
    while not length do
        length, at = utf8.len(name, at)
        if not length then
            name = name:sub(1, at - 1) .. hexadecimal(name:sub(at, at)) .. name:sub(at + 1)
            at = at + 4
        end
    end
    for _, hidden in ipairs { "[\0-\31\127]", "\xc2[\x80-\x9f]", "\xd8\x9c", "\xe2\x80[\x8e\x8f\xa8-\xae]", "\xe2\x81[\xa6-\xa9]" } do
        name = name:gsub(hidden, hexadecimal)
    end
    return name
end

-- The key of the open pattern, or what the program says of it.
local function key_of_pattern()
    local algorithm = g.getalgo()
    local ending = (algorithm == "QuickLife" or algorithm == "Larger than Life") and "rle" or "mc"
    local path = g.getdir("temp") .. "golly_canon_key." .. ending
    g.save(path, ending)
    local options = " --form " .. quoted(form) .. (within and " --within " .. quoted(within) or "")
    local pipe = io.popen(quoted(program) .. " keys" .. options .. " -- " .. quoted(path) .. " 2>&1")
    local said = pipe:read("a")
    pipe:close()
    os.remove(path)
    local key = said:match("^(%x+)  ")
    return key and #key == 64 and key, said
end

-- The names of the files in the table that have a key.
local function names_of(key)
    local names = {}
    local file, why = io.open(table_of_keys)
    if not file then g.exit("The table of keys can't be opened: " .. why) end
    for line in file:lines() do
        local its, name = line:match("^\\?(%x+)  (.*)$")
        if its == key then names[#names + 1] = shown(name) end
    end
    file:close()
    return names
end

if g.empty() then g.exit("There is no pattern.") end
local key, said = key_of_pattern()
if not key then g.exit("The pattern has no key. " .. said:gsub("%s+$", "")) end
local names = names_of(key)
if #names == 0 then
    g.show("No file of " .. table_of_keys .. " is this pattern (" .. form .. "), whose key is " .. key)
else
    g.show("This is the pattern (" .. form .. ") of " .. table.concat(names, ", "))
end
