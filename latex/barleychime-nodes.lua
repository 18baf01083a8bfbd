-- Nodes of TeX: their kinds, sizes and letters, whatever they are used for.

local N = {}

local id = node.id
N.HLIST, N.VLIST, N.RULE = id("hlist"), id("vlist"), id("rule")
N.GLUE, N.KERN, N.PENALTY = id("glue"), id("kern"), id("penalty")
N.INS, N.WHATSIT = id("ins"), id("whatsit")
N.GLYPH, N.DISC = id("glyph"), id("disc")

local function attribute(name) return luatexbase.registernumber("bc@attr@" .. name) end
N.LINE = attribute("line")              -- a line: its number in the run
N.FLOAT = attribute("float")            -- a float's box: its number in the run
N.ANCHOR = attribute("anchor")          -- what \end@float leaves in the text: the same
N.CITE = attribute("cite")              -- set by \ref and its like: which labels
N.LATER = attribute("later")            -- a mark where a command waits for its page
N.WAITING = attribute("waiting")        -- a penalty at which a command waits: which
N.BARRIER = attribute("barrier")        -- one that no float may pass: its number in the run

-- Penalties by which LaTeX calls its output routine, and ours.
N.FORCED, N.ASIDE, N.FLOAT_END = -10000, -10004, -10002
N.PAGE_END, N.PAUSE = -20117, -20118

local RUNNING = -1073741824             -- a rule's height that is left to its box
local RULE_HEIGHT = 26214

function N.is_box(n) return n.id == N.HLIST or n.id == N.VLIST or n.id == N.RULE end

-- Height and depth, neither below 0.
function N.size(n)
  local h, d = n.height, n.depth
  if n.id == N.RULE then
    h, d = h == RUNNING and RULE_HEIGHT or h, d == RUNNING and 0 or d
  end
  return math.max(h, 0), math.max(d, 0)
end

-- Calls visit(n) for every node of a list, however deep.
function N.deep(list, visit)
  if not list then return end
  for n in node.traverse(list) do
    visit(n)
    if n.id == N.HLIST or n.id == N.VLIST then N.deep(n.list, visit)
    elseif n.id == N.DISC then N.deep(n.replace, visit) end
  end
end

-- Whether a font has symbols where others have letters, as old mathematical ones do.
local symbols = {}
local function is_symbols(number)
  if symbols[number] == nil then
    local name = (font.getfont(number) or {}).name or ""
    symbols[number] = name:match("^%a*sy%d+$") ~= nil or name:match("^%a*ex%d+$") ~= nil
  end
  return symbols[number]
end

-- The letters of a box; codes below 32, ligatures of old fonts, as {0b}.
function N.letters(box)
  local t = {}
  N.deep(box.list, function (n)
    if n.id == N.GLYPH and not is_symbols(n.font) then
      t[#t + 1] = n.char < 32 and string.format("{%02x}", n.char) or utf8.char(n.char)
    end
  end)
  return table.concat(t)
end

-- The same with a blank for every space in the text, as a person reads it.
function N.words(box)
  local t = {}
  N.deep(box.list, function (n)
    if n.id == N.GLYPH and n.char >= 32 then t[#t + 1] = utf8.char(n.char)
    elseif n.id == N.GLUE and n.width > 65536 then t[#t + 1] = " " end
  end)
  return (table.concat(t):gsub("%s+", " "):gsub("^ ", ""):gsub(" $", ""))
end

local SPACE = {[N.GLUE] = true, [N.KERN] = true, [N.PENALTY] = true, [N.HLIST] = true,
               [N.VLIST] = true, [id("local_par")] = true, [id("dir")] = true}

-- Whether a box has neither size nor contents.
function N.hollow(n)
  if n.id == N.RULE then return N.size(n) == 0 end
  local result = n.height <= 0 and n.depth <= 0
  N.deep(n.list, function (m) result = result and SPACE[m.id] end)
  return result
end

function N.penalty(value)
  local n = node.new(N.PENALTY)
  n.penalty = value
  return n
end

-- Two lists as one; head and tail of the whole. The first one's tail is its head if none is given.
function N.join(head, tail, more)
  if not head then return more, node.tail(more) end
  tail = tail or head
  tail.next, more.prev = more, tail
  return head, node.tail(more)
end

-- Whether a penalty closes what \end@float leaves in the text.
function N.closes_float(n)
  return n.id == N.PENALTY and n.penalty <= N.FLOAT_END and n.penalty > N.ASIDE
end

return N
