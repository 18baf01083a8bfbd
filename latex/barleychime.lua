-- Galleys out of LaTeX's main vertical list, and pages back into it by a list.
--
-- Whatever LaTeX contributes to the page is held here, not shown to the page builder, up to
-- the next forced page end: that much is a galley. Then it is measured, and either goes on as
-- it came, so that LaTeX makes the pages, or in pages by the list, each ended by a penalty
-- that barleychime.sty takes up. manual.tex says how and why.

local function part(name, ...)
  local path = kpse.find_file("barleychime-" .. name .. ".lua", "tex")
  assert(path, "barleychime-" .. name .. ".lua is not where barleychime.lua is: install all files")
  return loadfile(path)(...)
end

local N = part("nodes")
local G = part("galley", N)
local L = part("list", N, G)
local P = part("pages", N, G, L)
local options = part("options")
local files = part("files", N)

local M = {}

local has, set = node.has_attribute, node.set_attribute
local max = math.max
local MAXDIMEN = 1073741823
local OUTER = 1                         -- the mode of the main vertical list

local opt                               -- what the package was told
local held, held_tail                   -- the galley that is being collected
local inside = false                    -- its last items are a float's place
local passing = false                   -- its rest is LaTeX's own
local foreign = 0                       -- depth of what has an output routine of its own
local bound = false                     -- it is LaTeX's own up to the next forced page end
local taking_back = false               -- what LaTeX has of the page is to be held
local lists                             -- page lists by galley; nil if there is no JOB.list
local queue = {}                        -- pages by a list on their way to the page builder
local asides, pauses = {}, {}           -- floats' places and waiting commands, the same
local unbroken = false                  -- the float at hand stands below a heading
local commands = {}                     -- those that wait for their page or their place
local due                               -- the page that is being made
local memory                            -- the last node that was held, copied
local opens = "any"                     -- on which side the next galley opens
local barriers = 0                      -- how many there were
-- What a run meets: its galleys, lines, floats, citations with the labels of each, the folio
-- of every page, and lines and floats that were shipped again.
local run = {galleys = {}, lines = {}, floats = {}, cites = {}, folios = {}, again = {}}

local PLAIN = luatexbase.registernumber("catcodetable@atletter")
local function tell(text) tex.sprint(PLAIN, text) end
local function say(...) luatexbase.module_info("barleychime", string.format(...)) end
local function warn(...) luatexbase.module_warning("barleychime", string.format(...)) end

-- ---------------------------------------------------------------- the galley

local function measured(head)
  local g = G.measure(head, opt, run)
  if not g then return nil end
  g.number, g.folio, g.opens = #run.galleys + 1, tex.count["c@page"], opens
  opens = "any"
  run.galleys[g.number] = g
  for _, line in ipairs(g.lines) do
    run.lines[#run.lines + 1] = line
    set(line.box, N.LINE, #run.lines)
    if opt.trace and line.box.id ~= N.RULE then line.text = N.letters(line.box) end
  end
  return g
end

-- Whether floats stand on LaTeX's page or wait for one; met: or were just met.
local function page_has_floats(met)
  for _, list in ipairs{"@toplist", "@midlist", "@botlist", "@deferlist", met and "@currlist"} do
    if token.get_macro(list) ~= "" then return true end
  end
  return false
end

-- Why there is no following the list for a galley, if there is one.
local function hindrance(g, list)
  local why = L.flaw(g, list)
  if not why and page_has_floats() then
    why = "floats from before it are still to be placed"
  end
  if not why and opt.sides == 2 and (g.folio - list.folio) % 2 ~= 0 then
    why = "it now opens on page " .. g.folio .. ", on the other side"
  end
  return why
end

-- The list for a galley, or nil: then LaTeX makes the pages.
local function list_for(g)
  if not lists then return nil end
  local list = lists[g.number .. " " .. g.sum] or lists[g.sum]
  if not g.fits then
    warn("Galley %d is too large: LaTeX makes its pages", g.number)
  elseif not list then
    warn("Galley %d has changed since the list was made: LaTeX makes its pages.\n"
         .. "Make the list again", g.number)
  elseif #list == 0 and not list.bad then
    say("no list for galley %d: LaTeX makes its pages", g.number)
  else
    local why = hindrance(g, list)
    if not why then return list end
    warn("The list does not fit galley %d: LaTeX makes its pages\n(%s).\nMake the list again",
         g.number, why)
  end
end

-- Floats' places and waiting commands that LaTeX's output routine is going to meet, in order.
local function announce(head)
  for n in node.traverse(head) do
    if n.id == N.PENALTY and n.penalty == N.ASIDE then
      asides[#asides + 1] = run.floats[has(n, N.ANCHOR) or 0] or false
    elseif n.id == N.PENALTY and n.penalty == N.PAUSE then
      pauses[#pauses + 1] = commands[has(n, N.WAITING) or 0] or "\\bc@lua{take_back()}\\bc@back"
    end
  end
end

-- Nodes for the page builder out of all that is held.
local function close_galley()
  local head = held
  held, held_tail, inside = nil, nil, false
  if memory then node.free(memory) end
  memory = nil
  if not head then return nil end
  local g = measured(head)
  local list = g and list_for(g)
  if list then
    local pages
    head, pages = P.in_pages(g, list, head, opt.kludgeins)
    table.move(pages, 1, #pages, #queue + 1, queue)
    g.by_list = true
    tex.set("global", "vsize", MAXDIMEN)
  end
  announce(head)
  return head
end

-- ------------------------------------------------------------------- holding

-- The page builder gets something it will discard, as its page is empty, but
-- which it remembers: \lastskip, \lastkern and \lastpenalty are as they should be.
local function reminder(n)
  if n then
    if memory then node.free(memory) end
    local t = n.id
    if t == N.GLUE or t == N.KERN or t == N.PENALTY then memory = node.copy(n)
    else memory = node.new(N.KERN); memory.kern = 0 end
  end
  return memory and node.copy(memory)
end

-- The first node of a list that ends the galley, and the last that counts.
local function scan(head)
  local last
  for n in node.traverse(head) do
    local p = n.id == N.PENALTY and n.penalty
    if inside then
      if p and p <= N.FLOAT_END then inside = false end
    elseif p == N.ASIDE then inside = true
    elseif p ~= N.PAUSE then
      if p and p <= N.FORCED then return n, last end
      last = n
    end
  end
  return nil, last
end

-- Parts a list before and after a node: what is before, or nil, and what is after.
local function cut(head, at)
  local before = head
  if at == head then before = nil else at.prev.next = nil; at.prev = nil end
  local after = at.next
  at.next = nil
  if after then after.prev = nil end
  return before, after
end

-- What comes up to the next forced page end is held, or passed on as LaTeX's own; there the
-- galley is closed. What the page builder is to have now.
local function sort_out(rest)
  local out, out_tail, last
  local function let_go(list)
    if list then out, out_tail = N.join(out, out_tail, list) end
  end
  while rest do
    local stop, before
    stop, last = scan(rest)
    before = rest
    if stop then before, rest = cut(rest, stop) else rest = nil end
    if before and passing then announce(before); let_go(before)
    elseif before then held, held_tail = N.join(held, held_tail, before) end
    if stop then
      if not passing then let_go(close_galley()) end
      let_go(stop)
      passing, bound = foreign > 0, false
    end
  end
  if held then let_go(reminder(last)) end
  return out
end

local function calls_output(head)
  for n in node.traverse_id(N.PENALTY, head) do
    if n.penalty <= N.FORCED then return true end
  end
  return false
end

local function filter(info)
  local contributed = tex.lists.contrib_head
  if info == "after_output" then        -- what an output routine gave back
    if #queue > 0 then tex.set("global", "vsize", MAXDIMEN) end
    if not taking_back then return end
    taking_back, passing = false, false
  end
  asides, pauses = {}, {}               -- by now all is placed
  if passing and foreign == 0 and not bound and contributed and tex.lists.page_head
     and not calls_output(contributed) and not page_has_floats(true) then
    contributed = N.join(N.penalty(N.PAUSE), nil, contributed)
  end
  tex.lists.contrib_head = sort_out(contributed)
end

-- Whether a box with any size is among nodes.
local function typeset(head)
  for n in node.traverse(head) do
    if N.is_box(n) then
      local h, d = N.size(n)
      if h + d > 0 then return true end
    end
  end
  return false
end

-- Whether text is held that a command now met must not overtake.
local function holding()
  if not opt or passing then return false end
  return held and typeset(held) or typeset(tex.lists.contrib_head)
    or tex.nest[tex.nest.ptr].mode ~= OUTER
end

-- LaTeX makes the pages of what is held, and from here on: to the next forced page end, unless
-- the page is taken back before.
-- build: the page builder is called, so that \pagetotal says what is on the page.
-- to_page_end: the page is not taken back.
function M.hand_over(who, build, to_page_end)
  if not opt then return end
  foreign, bound = foreign + 1, bound or to_page_end
  warn("%s: LaTeX makes the pages up to %s", who,
       to_page_end and "the next forced page end" or "its end")
  if passing then return end
  passing = true
  if not held then return end
  announce(held)
  local tail = held_tail
  tail.next = tex.lists.contrib_head
  tex.lists.contrib_head = held
  held, held_tail = nil, nil
  if build then tex.triggerbuildpage() end
end

function M.hand_back() foreign = max(foreign - 1, 0) end

-- A frame that is held is not broken unless it is higher than a page: said once.
function M.framed()
  if not opt or passing or run.framed then return end
  run.framed = true
  warn("framed: a frame that fits a page is not broken")
end

-- A page end meanwhile is none of the document's: LaTeX's own goes on after it.
function M.stand_off(more) foreign, bound = foreign + more, true end

-- What the output routine gives back is held, if no float stands on the page or waits.
function M.take_back() taking_back = not page_has_floats(true) end

-- ------------------------------------------------------- called by the package

function M.start(told)
  opt = options.check(told)
  local path = files.path(opt.job, ".list")
  lists = L.read(path)
  kpse.record_input_file(path)          -- so that latexmk knows of it
  luatexbase.add_to_callback("buildpage_filter", filter, "barleychime")
end

-- The next galley opens on a side that is not left to the pages before it.
function M.opens(side)
  if opt and opt.sides == 2 and not holding() then opens = side end
end

function M.begin_float(kind)
  if kind == "table" and opt.streams == 2 and (run.keep or run.continued) then
    warn("Tables are not kept together:\nstreams=1 puts them among the figures, which are")
  end
  if run.continued then
    for k = #run.floats, 1, -1 do
      if run.floats[k].kind == kind then run.floats[k].keep = true; break end
    end
  end
  run.floats[#run.floats + 1] = {kind = kind, labels = run.labels or {}, keep = run.keep}
  run.labels, run.keep, run.continued = nil, nil, nil
  return #run.floats
end

function M.end_float(register, name, floatpenalty, nobreak)
  local f, box = run.floats[#run.floats], tex.box[register]
  if floatpenalty >= 0 or not box then return end
  f.high, f.name, f.nobreak = box.height + box.depth, name, nobreak
  f.shares = {}                         -- may be changed in a group around the float
  for _, share in ipairs{"textfraction", "topfraction", "bottomfraction"} do
    f.shares[share] = token.get_macro(share)
  end
  set(box, N.FLOAT, #run.floats)
  if opt.trace then f.text = N.letters(box) end
  if not passing then
    f.taken = true
    tell("\\bc@take{" .. name .. "}")
  end
end

-- The float at hand is kept with the next one, or goes on from the one before.
function M.keep() run.keep = true end
function M.continued() run.continued = true end

function M.label(name)
  run.labels = run.labels or {}
  run.labels[name] = true
end

function M.cite(names)
  local t = {}
  for name in names:gmatch("[^,]+") do t[#t + 1] = name:match("^%s*(.-)%s*$") end
  run.cites[#run.cites + 1] = t
  return #run.cites
end

-- LaTeX's output routine comes to a float's place: it finds the float.
function M.aside()
  local f = table.remove(asides, 1)
  if not f or not f.taken then return end
  f.taken = false
  unbroken = f.nobreak
  if unbroken then tell("\\@nobreaktrue") end
  for share, value in pairs(f.shares) do tell("\\def\\" .. share .. "{" .. value .. "}") end
  tell("\\bc@give{" .. f.name .. "}")
end

function M.aside_done()
  if unbroken then tell("\\@nobreakfalse") end
  unbroken = false
end

-- A command for the page on which it is read waits for that page.
function M.later(command)
  if not holding() then tex.sprint("0 "); return end
  commands[#commands + 1] = command
  local n = node.new(N.WHATSIT, node.subtype("user_defined"))
  n.type, n.value = 100, #commands
  set(n, N.LATER, #commands)
  node.write(n)
  tex.sprint("1 ")
end

function M.run_later(number)
  local box = tex.box[number]
  if not opt or not box or not box.list then return end
  N.deep(box.list, function (n)
    local command = n.id == N.WHATSIT and commands[has(n, N.LATER) or 0]
    if command then
      tell(command)
      commands[has(n, N.LATER)] = false
    end
  end)
end

-- A command for the place at which it is read waits until the page builder comes there.
-- Its number, or 0 if it is to be run now.
function M.wait(command)
  if not holding() then tex.sprint("0 "); return end
  commands[#commands + 1] = command
  tex.sprint(#commands .. " ")
end

function M.resume() tell(table.remove(pauses, 1) or "\\bc@back") end
function M.pause_next(command) table.insert(pauses, 1, command) end

-- The number of the barrier at hand if it waits like that; 0 if it is to be run now, and -1
-- if the list asks for a page end here.
function M.barrier()
  barriers = barriers + 1
  local ends = lists and lists.barriers[barriers]
  tex.sprint((not holding() and 0 or ends and -1 or barriers) .. " ")
end

-- The floats of the page that is due: of two kinds, the first at the top, the
-- other at the foot; where LaTeX wants none at the top, as below a title, both there.
function M.page()
  local page = table.remove(queue, 1)
  due = page
  local low = tex.count["@topnum"] == 0
  local function put(stream, where)
    for _, f in ipairs(stream) do
      tell("\\bc@put{" .. where .. "}{" .. f.name .. "}")
    end
  end
  tell((page.text and 1 or 2) .. "\\relax ")
  put(page.FG, low and "bot" or "top")
  put(page.TB, (low or #page.FG > 0) and "bot" or "top")
end

function M.pages_left() tex.sprint(#queue .. " ") end
function M.loose() tex.sprint(opt.bottom == "loose" and "1 " or "0 ") end

-- Natural height of the list that is being built, its stretch and shrink, and whether
-- something in it stretches without end.
local function measure_column()
  local total, stretch, shrink, endless = 0, 0, 0, false
  for n in node.traverse(tex.nest[tex.nest.ptr].head.next) do
    if n.id == N.RULE then
      local h, d = N.size(n)
      total = total + h + d
    elseif N.is_box(n) then total = total + n.height + n.depth
    elseif n.id == N.KERN then total = total + n.kern
    elseif n.id == N.GLUE then
      total = total + n.width
      if n.stretch_order > 0 then endless = endless or n.stretch > 0
      else stretch = stretch + n.stretch end
      if n.shrink_order == 0 then shrink = shrink + n.shrink end
    end
  end
  return total, stretch, shrink, endless
end

-- White at the foot where the page does not reach it with every space at its widest.
function M.foot(colht)
  local total, stretch, shrink, endless = measure_column()
  if not endless and total + stretch < colht then
    tell("\\vskip " .. (colht - total - stretch) .. "sp\\relax")
  end
  say("galley %d page %d: %.2f to %.2f pt high, by the list %.2f to %.2f", due.galley, due.number,
      (total - shrink) / 65536, (total + stretch) / 65536, due.tight / 65536, due.loose / 65536)
  if total - shrink > colht + 65536 then
    warn("Page %d is %.2f pt too high", tex.count["c@page"], (total - shrink - colht) / 65536)
  end
end

function M.shipped(number)
  local page = #run.folios + 1
  run.folios[page] = tex.count["c@page"]
  local box = tex.box[number]
  if not opt or not box or not box.list then return end
  local function meet(x)
    if x.page then run.again[#run.again + 1] = {block = x, page = page} end
    x.page = x.page or page
  end
  N.deep(box.list, function (n)
    local f, l = run.floats[has(n, N.FLOAT) or 0], run.lines[has(n, N.LINE) or 0]
    if f and N.is_box(n) then meet(f) end
    if l then meet(l) end
  end)
end

function M.finish()
  if not opt then return end
  if #run.again > 0 then
    warn("%d lines and floats are set more than once, first on page %d of the PDF", #run.again,
         run.again[1].page)
  end
  files.write(opt, run)
end

return M
