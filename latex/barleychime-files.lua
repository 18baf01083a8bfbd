-- What a run leaves: JOB.galley.txt, the galleys; JOB.pages, on which page of the PDF
-- everything is; and with the option trace JOB.text, the letters of every line and float.

local N = ...

local F = {}

-- The directory that TeX was told to write to, with a slash; "" if it was not.
local function output_directory()
  for k, a in ipairs(arg or {}) do
    local name, value = a:match("^%-%-?(output%-directory)=?(.*)$")
    if name then
      if value == "" then value = arg[k + 1] or "." end
      return (value:gsub("/*$", "/"))
    end
  end
  return ""
end

function F.path(job, ending) return output_directory() .. job:gsub('"', "") .. ending end

-- First and last page of the PDF that has something of a galley.
local function span(g, run)
  local first, last = math.huge, 0
  local function meet(page)
    if page then first, last = math.min(first, page), math.max(last, page) end
  end
  for _, line in ipairs(g.lines) do meet(line.page) end
  for _, mark in ipairs{"FG", "TB"} do
    for _, x in ipairs(g[mark]) do meet(x.float.page) end
  end
  return first, last
end

-- Whether a galley opens on the page after another's last, whatever that is.
local function follows(before, g, run)
  if not before or g.opens ~= "any" then return false end
  local _, last = span(before, run)
  local first = span(g, run)
  return first == last + 1 and run.folios[first] == run.folios[last] + 1
end

-- Remarks on a galley that are no part of it, then its records.
local function write_galley(out, k, run)
  local g = run.galleys[k]
  out:write(string.format("# galley %d: %d lines, %d figures, %d tables\n", k, #g.lines, #g.FG,
                          #g.TB))
  local first, last = span(g, run)
  out:write("# sum ", g.sum, "\n# opens ", g.opens, "\n")
  if last > 0 then out:write("# shipped ", run.folios[first], " ", run.folios[last], "\n") end
  if follows(run.galleys[k - 1], g, run) then out:write("# follows\n") end
  for _, b in ipairs(g.barriers) do
    out:write(string.format("# barrier %d after %d %d %d\n", b.number, b.at, b.FG, b.TB))
  end
  out:write("# text ", g.words, "\n")
  out:write(g.rows[1], "\nFO ", g.folio, "\n", table.concat(g.rows, "\n", 2), "\n")
end

-- The page of every block of a galley, 0 for what was not shipped. What was shipped again has
-- "again LINES N PAGE", with the stream's name and its number there.
local function write_pages(out, k, run)
  local g = run.galleys[k]
  out:write(string.format("galley %d %s\n", k, g.by_list and "list" or "latex"))
  local number = {}                     -- of a block: its stream and its number there
  local function write_stream(name, stream)
    out:write(name)
    for i, x in ipairs(stream) do
      local block = x.float or x
      number[block] = name .. " " .. i
      out:write(" ", block.page or 0)
    end
    out:write("\n")
  end
  write_stream("lines", g.lines)
  write_stream("figures", g.FG)
  write_stream("tables", g.TB)
  for _, again in ipairs(run.again) do
    local name = number[again.block]
    if name then out:write("again ", name, " ", again.page, "\n") end
  end
end

local function write_text(out, k, run)
  local g = run.galleys[k]
  out:write("galley ", k, "\n")
  for _, line in ipairs(g.lines) do out:write("l ", line.text or "", "\n") end
  for _, x in ipairs(g.FG) do out:write("f ", x.float.text or "", "\n") end
  for _, x in ipairs(g.TB) do out:write("t ", x.float.text or "", "\n") end
end

local function write_each(path, run, opening, write)
  local out = assert(io.open(path, "w"))
  out:write(opening)
  for k = 1, #run.galleys do write(out, k, run) end
  out:close()
end

function F.write(opt, run)
  write_each(F.path(opt.job, ".galley.txt"), run, "", write_galley)
  write_each(F.path(opt.job, ".pages"), run,
             "folios " .. table.concat(run.folios, " ") .. "\n", write_pages)
  if opt.trace then write_each(F.path(opt.job, ".text"), run, "", write_text) end
end

return F
