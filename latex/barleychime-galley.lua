-- What is held as a galley: its lines, where a page may end, its floats and the
-- lines that cite them, as README's "The galley as text" has it.

local N = ...
local has = node.has_attribute
local floor, max, min = math.floor, math.max, math.min

local G = {}

local MOST = {lines = 4000, FG = 200, TB = 50, high = 100000}     -- limits of a galley

-- --------------------------------------------------------------------- survey
-- One pass over the list. s.line is the last line met; s.solid says whether what stands
-- before is a box, so that TeX may end a page at the next glue; s.aside, that a float's
-- place in the text is being passed.

local function may_end(s, n, penalty)
  if s.line and penalty < s.line.penalty then s.line.penalty, s.line.stop = penalty, n end
end

local function cited_in(s, list)
  N.deep(list, function (m)
    for _, label in ipairs(s.cites[has(m, N.CITE) or 0] or {}) do
      s.first[label] = s.first[label] or #s.lines
    end
  end)
end

local function meet_space(s, n)
  local glue = n.id == N.GLUE
  if s.line then
    local line = s.line
    line.natural = line.natural + (glue and n.width or n.kern)
    if glue and n.stretch_order == 0 then line.stretch = line.stretch + n.stretch end
    if glue and n.shrink_order == 0 then line.shrink = line.shrink + n.shrink end
  end
  if glue and s.solid or not glue and n.next and n.next.id == N.GLUE then may_end(s, n, 0) end
  s.solid = false
end

local function meet_box(s, n)
  local h, d = N.size(n)
  if h + d > 0 or not s.line then       -- \vspace* hangs on an empty rule in front
    s.line = {box = n, h = h, d = d, natural = 0, stretch = 0, shrink = 0, notes = 0,
              penalty = 10000}
    s.lines[#s.lines + 1] = s.line
  end
  if n.id ~= N.RULE then cited_in(s, n.list) end
  s.solid = true
end

local function meet_note(s, n)
  local line = s.line
  if n.subtype == s.footins and line then
    if line.notes == 0 then line.notes = tex.getskip(s.footins).width end
    line.notes = line.notes + n.height
    cited_in(s, n.head)
  end
end

local function meet_penalty(s, n)
  if n.penalty == N.ASIDE then
    s.aside = true
    local f = s.floats[has(n, N.ANCHOR) or 0]
    if f then s.found[#s.found + 1] = {float = f, at = #s.lines} end
  elseif n.penalty == N.PAUSE then
    local number = has(n, N.BARRIER)
    if number then
      s.barriers[#s.barriers + 1] = {number = number, at = #s.lines, floats = #s.found}
    end
  else
    may_end(s, n, n.penalty)
    s.solid = false
  end
end

local function meet(s, n)
  local t = n.id
  if s.aside then s.aside = not (t == N.PENALTY and n.penalty <= N.FLOAT_END)
  elseif t == N.PENALTY then meet_penalty(s, n)
  elseif t == N.GLUE or t == N.KERN then meet_space(s, n)
  elseif N.is_box(n) then meet_box(s, n)
  else
    if t == N.INS then meet_note(s, n) end
    s.solid = true
  end
end

-- ------------------------------------------------------------------- heights

-- A page is as high as TeX says, with its first baseline \topskip below the top
-- and its last depth below the foot, if a line is raised to \topskip out of the
-- space before it, as far as there is any, and its depth counts as space.
local function to_blocks(lines)
  local topskip, maxdepth = tex.skip.topskip.width, tex.dimen["@maxdepth"]
  local raise = topskip
  for k, line in ipairs(lines) do
    local under = min(line.d, maxdepth)
    local high = line.h + line.d - under + max(0, min(topskip - line.h, raise)) + line.notes
    local least = under + line.natural - max(line.shrink, 0)
    local most = under + line.natural + max(line.stretch, 0)
    local after = lines[k + 1]
    raise = after and max(0, min(topskip - after.h, least)) or 0
    least, most = least - raise, most - raise
    local give = min(high, max(0, -least))          -- no space is negative
    line.high = min(high - give, tex.dimen.textheight)
    line.least, line.most = max(least + give, 0), max(most + give, least + give, 0)
  end
end

local function hundredths(sp) return min(floor(sp / 655.36 + 0.5), MOST.high) end

-- Least and greatest length of a skip of LaTeX's, in hundredths of a point.
function G.least_most(name)
  local s = tex.skip[name]
  return hundredths(s.width - (s.shrink_order == 0 and s.shrink or 0)),
         hundredths(s.width + (s.stretch_order == 0 and s.stretch or 0))
end

-- ----------------------------------------------------------------- citations

local function earliest(labels, first)
  local line
  for label in pairs(labels) do
    if first[label] then line = min(line or first[label], first[label]) end
  end
  return line
end

-- A float is cited where its label is first referred to, else where it stands.
-- Citations rise; one that comes late does not hold back the floats after it.
local function citations(stream, first, count)
  for _, x in ipairs(stream) do
    x.at = min(max(x.at, 1), count)
    x.cite = earliest(x.float.labels, first) or x.at
  end
  local bound = count
  for k = #stream, 1, -1 do
    local x = stream[k]
    local own = max(x.at, x.cite)
    if x.cite > x.at then x.cite = min(x.cite, max(x.at, bound)) end
    bound = min(bound, own)
  end
  for k = 2, #stream do stream[k].cite = max(stream[k].cite, stream[k - 1].cite) end
end

-- Floats that belong together are kept on one page, where one page has room for them all.
local function keep_together(stream, high)
  local first = 1
  for k, x in ipairs(stream) do
    x.keep = x.float.keep and k < #stream
    if not x.keep then
      local sum, _, space = 0, G.least_most("floatsep")
      for i = first, k do sum = sum + min(hundredths(stream[i].float.high), high) + space end
      for i = first, k - 1 do stream[i].keep = sum - space <= high end
      first = k + 1
    end
  end
end

-- ---------------------------------------------------------------- the galley

local function specification(opt, high)
  local function share(percent) return floor(high * percent / 100) end
  local sMin, sMax = G.least_most("textfloatsep")
  local spec = {share(opt.fill), high, sMin, sMax, opt.sides, opt.alpha, opt.beta}
  if opt.lastmin >= 0 then spec[8] = share(opt.lastmin) end
  return (spec[8] and "G2 " or "GS ") .. table.concat(spec, " ")
end

local function records(g, opt)
  local high = hundredths(tex.dimen.textheight)
  local rows = {specification(opt, high)}
  for _, line in ipairs(g.lines) do
    local ends = line.stop and line.penalty < opt.forbid and 1 or 0
    rows[#rows + 1] = table.concat({"TL", hundredths(line.high), hundredths(line.least),
                                    hundredths(line.most), ends}, " ")
  end
  local fMin, fMax = G.least_most("floatsep")
  keep_together(g.FG, high)
  for _, mark in ipairs{"FG", "TB"} do
    for _, x in ipairs(g[mark]) do
      rows[#rows + 1] = table.concat({mark == "FG" and x.keep and "FK" or mark,
        min(hundredths(x.float.high), high), fMin, fMax, x.cite}, " ")
    end
  end
  rows[#rows + 1] = "ED"
  return rows
end

-- Figures and tables, and how many of each stand before a barrier.
local function sort_floats(g, s, streams)
  local next_barrier = 1
  for k = 0, #s.found do
    if k > 0 then
      local x = s.found[k]
      local stream = g[streams == 2 and x.float.kind == "table" and "TB" or "FG"]
      stream[#stream + 1] = x
    end
    while s.barriers[next_barrier] and s.barriers[next_barrier].floats == k do
      local b = s.barriers[next_barrier]
      b.FG, b.TB = #g.FG, #g.TB
      next_barrier = next_barrier + 1
    end
  end
end

local function opening_words(lines)
  for _, line in ipairs(lines) do
    local text = line.box.id ~= N.RULE and N.words(line.box) or ""
    if #text > 3 then return text end
  end
  return ""
end

-- The galley of a list of nodes; nil if it has nothing to be placed. opt is what the
-- package was told, run has the run's floats, and its citations with the labels of each.
function G.measure(head, opt, run)
  local s = {lines = {}, found = {}, first = {}, barriers = {}, line = nil, aside = false,
             solid = true, footins = opt.footins, floats = run.floats, cites = run.cites}
  for n in node.traverse(head) do meet(s, n) end
  local solid = 0
  for _, line in ipairs(s.lines) do solid = solid + line.h + line.d end
  if solid == 0 then return nil end
  local g = {lines = s.lines, FG = {}, TB = {}, barriers = s.barriers,
             words = opening_words(s.lines)}
  to_blocks(g.lines)
  sort_floats(g, s, opt.streams)
  citations(g.FG, s.first, #g.lines)
  citations(g.TB, s.first, #g.lines)
  g.rows = records(g, opt)
  g.sum = md5.sumhexa(table.concat(g.rows, "\n"))
  g.fits = #g.lines <= MOST.lines and #g.FG <= MOST.FG and #g.TB <= MOST.TB
  return g
end

return G
