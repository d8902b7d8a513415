# The scripts of bench/node_events.sh. `what` names one, `size` is its size. Lines go to the files folder/NN.before and
# folder/NN.measured, in turn; the number of operations that are measured is printed.

function to(part) {
  close(file)
  if (part == "before") phase++
  file = sprintf("%s/%02d.%s", folder, phase, part)
  printf "" > file
}

# an event, which makes an entry
function say(line) { print line > file; entries++ }

# a text of digits and letters in hex
function hex(text,  i, out) {
  for (i = 1; i <= length(text); i++) out = out sprintf("%02x", index(ascii, substr(text, i, 1)) + 31)
  return out
}

function short_text(text) { return sprintf("%02x", length(text)) hex(text) }

function long_text(text) { return sprintf("%04x", length(text)) hex(text) }

# a row of the peer a@h, of creation 5
function row(group, number) { return short_text(group) a_of_5 sprintf("%016x", number) }

function sync(link, scope, groups, members,  i, j, line) {
  line = "frame " link " 53" short_text(scope) sprintf("%08x", groups * members)
  for (i = 0; i < groups; i++) for (j = 1; j <= members; j++) line = line row("g" i, j)
  say(line)
}

# a handshake of this peer up to its digest, which every peer has, for the challenge 123
function handshake(peer,  link) {
  say("opened 123")
  link = entries
  say("frame " link " 4e000000000100000100000005" long_text(peer))
  say("take " link)
  say("frame " link " 7200000001482c811da5d5b4bc6d497ffa98491e38")
  say("take " link)
  return link
}

function spawns(count,  i) { for (i = 0; i < count; i++) say("spawn") }

# the processes 1 to count behind a command
function crowd(command, count,  i) {
  for (i = 1; i <= count; i++) command = command " b@h/4/" i
  return command
}

# 13 events, which leave groups, links and scopes as they were
function round(  link) {
  say("join pg g b@h/4/1")
  say("members pg g")
  say("join pg h b@h/4/1 b@h/4/2")
  say("groups pg")
  say("leave pg g b@h/4/1")
  say("local_members pg h")
  say("leave pg h b@h/4/1 b@h/4/2")
  link = handshake("a@h")
  say("lost " link)
}

function mix(  i) {
  say("start pg"); spawns(2)
  while (entries < size) round()
  to("measured")
  for (i = 0; i < 100; i++) round()
  return 1300
}

function join_leave(  i) {
  say("start pg"); spawns(size)
  if (size > 1) { say(crowd("join pg g", size)); say("leave pg g b@h/4/1") }
  to("measured")
  for (i = 0; i < 5000; i++) { say("join pg g b@h/4/1"); say("leave pg g b@h/4/1") }
  return 5000
}

function join_groups(  i) {
  for (i = 0; i < 4; i++) say("start s" i)
  spawns(1)
  to("measured")
  for (i = 0; i < size; i++) say("join s" i % 4 " g" i " b@h/4/1")
  return size
}

function members(  i) {
  say("start pg"); spawns(size); say(crowd("join pg g", size))
  to("measured")
  for (i = 0; i < 2000; i++) say("members pg g")
  return 2000
}

function exits(  i, run) {
  say("start pg")
  for (run = 1; run <= 20; run++) {
    if (run > 1) to("before")
    spawns(1)
    for (i = 0; i < size; i++) say("join pg g" i " b@h/4/" run)
    to("measured")
    say("exit b@h/4/" run)
  }
  return 20
}

function handshakes(  i) {
  say("start pg")
  to("measured")
  for (i = 0; i < 1000; i++) say("lost " handshake("a@h"))
  return 1000
}

function syncs(groups, rows,  link, run) {
  say("start pg")
  link = handshake("a@h")
  for (run = 1; run <= 10; run++) {
    if (run > 1) to("before")
    sync(link, "pg", 0, 0)
    to("measured")
    sync(link, "pg", groups, rows)
  }
  return 10
}

function loss(  i, link) {
  for (i = 0; i < size; i++) say("start s" i)
  link = handshake("a@h")
  for (i = 0; i < size; i++) sync(link, "s" i, 64, 64)
  to("measured")
  say("lost " link)
  return 1
}

function told(  i, link, run) {
  say("start pg"); spawns(1)
  for (i = 0; i < size; i++) {
    link[i] = handshake("p" i "@h")
    say("frame " link[i] " 44027067")
  }
  for (run = 1; run <= 10; run++) {
    if (run > 1) to("before")
    for (i = 0; i < size; i++) say("take " link[i])
    to("measured")
    for (i = 0; i < 20; i++) { say("join pg g b@h/4/1"); say("leave pg g b@h/4/1") }
  }
  return 200
}

function updates(  i, seen) {
  say("start pg"); spawns(1)
  while (entries < size) say("groups pg")
  say("monitor pg g")
  seen = entries
  to("measured")
  for (i = 0; i < 2000; i++) { say("join pg g b@h/4/1"); say("leave pg g b@h/4/1"); say("updates " seen) }
  return 2000
}

function fetched_by_all(first,  i) { for (i = 0; i < size; i++) say("updates " first + i) }

function scope_monitors(  i, first) {
  say("start pg"); spawns(1)
  first = entries + 1
  for (i = 0; i < size; i++) say("monitor_scope pg")
  to("measured")
  for (i = 0; i < 500; i++) {
    say("join pg g b@h/4/1"); fetched_by_all(first)
    say("leave pg g b@h/4/1"); fetched_by_all(first)
  }
  return 500
}

function links_memory(  i) {
  to("measured")
  for (i = 0; i < size; i += 2) { say("opened 123"); say("lost " entries) }
  return size
}

function processes_memory(  i) {
  to("measured")
  for (i = 1; 2 * i <= size; i++) { say("spawn"); say("exit b@h/4/" i) }
  return size
}

function joins_memory(  i) {
  say("start pg"); spawns(1)
  to("measured")
  for (i = 0; i < size; i += 2) { say("join pg g b@h/4/1"); say("leave pg g b@h/4/1") }
  return size
}

BEGIN {
  for (i = 32; i < 127; i++) ascii = ascii sprintf("%c", i)
  a_of_5 = long_text("a@h") "00000005"
  to("before")
  if (what == "mix") done = mix()
  else if (what == "join_leave") done = join_leave()
  else if (what == "join_groups") done = join_groups()
  else if (what == "members") done = members()
  else if (what == "exits") done = exits()
  else if (what == "handshakes") done = handshakes()
  else if (what == "sync_one_group") done = syncs(1, size)
  else if (what == "sync_groups") done = syncs(size, 1)
  else if (what == "loss") done = loss()
  else if (what == "told") done = told()
  else if (what == "updates") done = updates()
  else if (what == "scope_monitors") done = scope_monitors()
  else if (what == "links_memory") done = links_memory()
  else if (what == "processes_memory") done = processes_memory()
  else if (what == "joins_memory") done = joins_memory()
  else exit 1
  print done
}
