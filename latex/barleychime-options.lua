-- What the package was told, checked.

local O = {}

local function number(least, most, whole)
  local words = string.format("a %s from %d to %d", whole and "whole number" or "number", least, most)
  return words, function (text)
    local x = tonumber(text)
    if x and x >= least and x <= most and (not whole or x == math.floor(x)) then
      return whole and math.floor(x) or x
    end
  end
end

local function one_of(...)
  local values, words = {}, {}
  for _, pair in ipairs{...} do
    values[pair[1]], words[#words + 1] = pair[2], pair[1]
  end
  return table.concat(words, " or "), function (text) return values[text] end
end

-- An option: its name, its value where none or a bad one is given, what is due, and how it is read.
local function option(name, default, words, read)
  return {name = name, default = default, words = words, read = read}
end

local ALL = {
  option("fill", 90, number(0, 100)),
  option("lastmin", -1, number(-1, 100)),
  option("alpha", 1, number(0, 1000, true)),
  option("beta", 1, number(0, 1000, true)),
  option("sides", 0, number(0, 2, true)),
  option("streams", 2, number(1, 2, true)),
  option("forbid", 10000, number(-9999, 10000, true)),
  option("bottom", "loose", one_of({"loose", "loose"}, {"class", "class"})),
  option("trace", false, one_of({"true", 1}, {"false", 0})),
}

local function complain(o, text)
  tex.error("Package barleychime Error: option " .. o.name .. "=" .. text .. ": " .. o.words
            .. " is due", {"The package goes on with " .. o.name .. "=" .. tostring(o.default) .. "."})
end

-- The options with their values in place of what was written; bad ones are an error of TeX's.
function O.check(told)
  for _, o in ipairs(ALL) do
    local text = told[o.name]
    local value = o.read(text)
    if value == nil then
      complain(o, text)
      value = o.default
    end
    told[o.name] = value
  end
  told.trace = told.trace == 1
  if told.sides == 0 then told.sides = told.twoside and 2 or 1 end
  return told
end

return O
