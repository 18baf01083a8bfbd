-- Page lists: JOB.list, and whether a list can be followed for a galley.

local N, G = ...
local max = math.max

local L = {}

-- JOB.list: for each galley "galley N SUM FOLIO", then what `make` printed, or nothing if
-- LaTeX is to make its pages. SUM is the MD5 sum of the galley's records without FO.
-- "barrier N" asks for a page end at the N-th barrier. nil if there is no such file. Galleys that
-- are alike may have different lists, so a list is found by number and sum, else by the sum.
function L.read(path)
  local file = io.open(path)
  if not file then return nil end
  local all, list, numbers_due = {barriers = {}}, nil, false
  for row in file:lines() do
    local number, sum, folio = row:match("^galley (%d+) (%x+) (%d+)")
    local barrier = row:match("^barrier (%d+)")
    local i, j, d = row:match("^%d+ (%d+) (%d+) ?(%d*)$")
    if sum then
      list, numbers_due = {folio = tonumber(folio)}, true
      all[sum], all[number .. " " .. sum] = list, list
    elseif barrier then all.barriers[tonumber(barrier)] = true
    elseif list and numbers_due then
      numbers_due = false
      list.pages = tonumber(row:match("^(%d+) %d+ %d+ %d+ %d+$"))
      if not list.pages then list.bad = '"' .. row .. '" does not say how many pages' end
    elseif list and i then
      list[#list + 1] = {tonumber(i), tonumber(j), tonumber(d) or 0}
    elseif list then list.bad = list.bad or '"' .. row .. '" is no page end'
    end
  end
  file:close()
  return all
end

-- Tightest and loosest height of the page from one place to another, as the model has
-- them, in scaled points.
function L.extent(g, from, to)
  local tight, loose, kinds = 0, 0, 0
  local least, most = G.least_most("floatsep")
  for s, stream in ipairs{g.lines, g.FG, g.TB} do
    if to[s] > from[s] then kinds = kinds + 1 end
    for k = from[s] + 1, to[s] do
      local high = s == 1 and stream[k].high or stream[k].float.high
      local a = s == 1 and stream[k].least or least * 655.36
      local b = s == 1 and stream[k].most or most * 655.36
      if k == to[s] then a, b = 0, 0 end
      tight, loose = tight + high + a, loose + high + b
    end
  end
  least, most = G.least_most("textfloatsep")
  return tight + max(kinds - 1, 0) * least * 655.36, loose + max(kinds - 1, 0) * most * 655.36
end

-- Why page q, from one place to another, cannot be set; nil if it can.
local function page_flaw(g, q, from, to)
  local new = to[1] + to[2] + to[3] - from[1] - from[2] - from[3]
  if to[1] < from[1] or to[2] < from[2] or to[3] < from[3] or new == 0 then
    return "page " .. q .. " goes backwards or is empty"
  elseif to[1] > #g.lines or to[2] > #g.FG or to[3] > #g.TB then
    return "page " .. q .. " has more than there is"
  elseif to[1] > 0 and to[1] < #g.lines and not g.lines[to[1]].stop then
    return "page " .. q .. " ends where no page may end"
  elseif L.extent(g, from, to) > tex.dimen.textheight + 65536 then
    return "page " .. q .. " is too high"
  end
end

-- Why a list cannot be followed; nil if it can. The engine's lists always can.
function L.flaw(g, list)
  if list.bad then return list.bad end
  local last = {0, 0, 0}
  for q, page in ipairs(list) do
    local why = page_flaw(g, q, last, page)
    if why then return why end
    last = page
  end
  if last[1] ~= #g.lines or last[2] ~= #g.FG or last[3] ~= #g.TB then
    return "it does not place everything"
  elseif list.pages ~= #list then
    return "it says " .. list.pages .. " pages and has " .. #list
  end
end

return L
