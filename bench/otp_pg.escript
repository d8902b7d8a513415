#!/usr/bin/env escript
%%! -name otp_pg@127.0.0.1 -setcookie bench -connect_all false
%% The work of node_events.sh on OTP's own pg, by the clock: a line `KEY MICROSECONDS` for each, the least of seven runs
%% after one that isn't counted. Peers are processes that speak pg's own messages; only the handshake has a second node.
%% Members and Syncs are lines that are read and answered, as they are for the console, and KEY_bare is the same call
%% without its line. The first argument is a folder for their files, /tmp if there is none. It ends with status 0, or with 1
%% and a line on standard error: after a fault, or after MINUTES, with the lines so far.
-mode(compile).
-define(RUNS, 7).
-define(MINUTES, 15).
-define(SECONDS_EACH, 10).

main([]) -> main(["/tmp"]);
main([Folder]) ->
    {Worker, Ref} = spawn_monitor(fun() -> measure(Folder) end),
    receive
        {'DOWN', Ref, process, Worker, normal} -> leave(0);
        {'DOWN', Ref, process, Worker, Reason} -> give_up(io_lib:format("ended by a fault: ~0p", [Reason]))
    after timer:minutes(?MINUTES) ->
        give_up(io_lib:format("not done after ~b minutes", [?MINUTES]))
    end.

give_up(Why) ->
    io:format(standard_error, "otp_pg: ~s~n", [Why]),
    leave(1).

%% Ends at once. To flush the ports would be to wait for the second node's, too, so what was printed gets a moment to be written.
leave(Status) ->
    timer:sleep(500),
    erlang:halt(Status, [{flush, false}]).

measure(Folder) ->
    Script = filename:join(Folder, "otp_script"),
    join_leave(join_leave, 1, 20000),
    join_leave(join_leave_999, 1000, 5000),
    join_groups(10000),
    [members(Key, Size, 2000, Script) || {Key, Size} <- [{members_1, 1}, {members_10, 10}, {members_1000, 1000}]],
    exits(1000),
    handshakes(200),
    sync(sync_one_group, [{<<"g">>, pids(4096)}], Script),
    sync(sync_groups, [{group(I), [Pid]} || {I, Pid} <- lists:zip(lists:seq(1, 4096), pids(4096))], Script),
    bare_sync(parts_one_group, [{<<"g">>, pids(65536)}]),
    bare_sync(parts_groups, [{group(I), [Pid]} || {I, Pid} <- lists:zip(lists:seq(1, 65536), pids(65536))]),
    loss(64),
    told(63, 2000),
    watched(group_monitor, 1, fun(Scope) -> pg:monitor(Scope, g) end, 20000),
    watched(scope_monitors, 100, fun pg:monitor_scope/1, 2000).

%% The least of some runs, each of which gives its nanoseconds for this many operations.
least(Key, Operations, Run) ->
    Run(),
    Times = [Run() || _ <- lists:seq(1, ?RUNS)],
    io:format("~s ~.3f~n", [Key, lists:min(Times) / Operations / 1000]).

elapsed(Work) ->
    Start = erlang:monotonic_time(nanosecond),
    Work(),
    erlang:monotonic_time(nanosecond) - Start.

repeat(0, _) -> ok;
repeat(N, Work) -> Work(), repeat(N - 1, Work).

bare(Key) -> [atom_to_list(Key), "_bare"].

%% Plays a file of this line, so many times, as the console plays a script: each line is read, ahead and from a raw file,
%% its words are taken, and its answer is written to a raw file by one write.
played(Script, Count, Line, Answer) ->
    ok = file:write_file(Script, lists:duplicate(Count, Line)),
    {ok, In} = file:open(Script, [read, raw, binary, {read_ahead, 65536}]),
    {ok, Out} = file:open(Script ++ ".out", [write, raw, binary]),
    Time = elapsed(fun() -> repeat(Count, fun() -> ok = file:write(Out, Answer(words(file:read_line(In)))) end) end),
    [ok = file:delete(File) || File <- [Script, Script ++ ".out"]],
    [ok = file:close(File) || File <- [In, Out]],
    Time.

words({ok, Line}) -> binary:split(binary:part(Line, 0, byte_size(Line) - 1), <<" ">>, [global]).

%% The line of the answer to `members`.
members_of(Scope, Group) ->
    [<<"pids">>, [[$\s, pid_to_list(Pid)] || Pid <- pg:get_members(binary_to_existing_atom(Scope), Group)], $\n].

group(I) -> <<"g", (integer_to_binary(I))/binary>>.

scope(I) -> list_to_atom("scope" ++ integer_to_list(I)).

%% A process that drops what it is sent.
sink() -> spawn(fun drop/0).

drop() -> receive _ -> drop() end.

pids(Count) -> [sink() || _ <- lists:seq(1, Count)].

stop(Pids) ->
    [exit(Pid, kill) || Pid <- Pids],
    [receive {'DOWN', Ref, process, _, _} -> ok end || Ref <- [monitor(process, Pid) || Pid <- Pids]].

%% The second from which on something is waited for no more.
deadline() -> erlang:monotonic_time(second) + ?SECONDS_EACH.

%% Work with a scope, which is stopped afterwards.
with_scope(Name, Work) ->
    {ok, Scope} = pg:start(Name),
    Result = Work(Name),
    stop([Scope]),
    Result.

%% Until the scope lists so many groups, or up to the deadline.
listed(Scope, Groups) -> listed(Scope, Groups, deadline()).

listed(Scope, Groups, End) ->
    case {ets:info(Scope, size), erlang:monotonic_time(second) < End} of
        {Groups, _} -> ok;
        {_, true} -> erlang:yield(), listed(Scope, Groups, End)
    end.

%% Until neither node is connected. A scope of the second node that hears of a connection only once it is lost sends to this
%% node's scope all the same, and so connects anew: such a connection is ended again.
alone(Peer, Node) -> alone(Peer, Node, deadline()).

alone(Peer, Node, End) ->
    erlang:disconnect_node(Node),
    case {peer:call(Peer, erlang, nodes, []), nodes()} of
        {[], []} -> forget(Node);
        _ -> true = erlang:monotonic_time(second) < End, timer:sleep(1), alone(Peer, Node, End)
    end.

%% Drops what was told of connections before.
forget(Node) ->
    receive {Told, Node} when Told =:= nodeup; Told =:= nodedown -> forget(Node)
    after 0 -> ok
    end.

%% Until the scope has taken all messages that it was sent before.
taken(Scope) -> not_joined = pg:leave(Scope, nobody, self()).

pair(Scope, Pid) ->
    ok = pg:join(Scope, g, Pid),
    ok = pg:leave(Scope, g, Pid).

join_leave(Key, Size, Pairs) ->
    with_scope(bench, fun(Scope) ->
        [Pid | Others] = pids(Size),
        Others =:= [] orelse (ok = pg:join(Scope, g, Others)),
        least(Key, Pairs, fun() -> elapsed(fun() -> repeat(Pairs, fun() -> pair(Scope, Pid) end) end) end),
        stop([Pid | Others])
    end).

join_groups(Count) ->
    least(join_groups, Count, fun() ->
        Scopes = [scope(I) || I <- lists:seq(0, 3)],
        Started = [element(2, pg:start(Scope)) || Scope <- Scopes],
        Pid = sink(),
        Places = [{scope(I rem 4), group(I)} || I <- lists:seq(1, Count)],
        Time = elapsed(fun() -> [ok = pg:join(Scope, Group, Pid) || {Scope, Group} <- Places] end),
        stop([Pid | Started]),
        Time
    end).

members(Key, Size, Calls, Script) ->
    with_scope(pg, fun(Scope) ->
        Pids = pids(Size),
        ok = pg:join(Scope, <<"g">>, Pids),
        Call = fun() -> pg:get_members(Scope, <<"g">>) end,
        least(bare(Key), 10 * Calls, fun() -> elapsed(fun() -> repeat(10 * Calls, Call) end) end),
        Answer = fun([<<"members">>, Name, Group]) -> members_of(Name, Group) end,
        least(Key, Calls, fun() -> played(Script, Calls, <<"members pg g\n">>, Answer) end),
        stop(Pids)
    end).

exits(Count) ->
    with_scope(bench, fun(Scope) ->
        least(exit_1000, 1, fun() ->
            Pid = sink(),
            [ok = pg:join(Scope, group(I), Pid) || I <- lists:seq(1, Count)],
            elapsed(fun() -> exit(Pid, kill), listed(Scope, 0) end)
        end)
    end).

%% Work with a second node, if nodes can be started here.
with_node(Work) ->
    case is_alive() andalso peer:start(#{name => otp_peer, host => "127.0.0.1", longnames => true,
                                         connection => standard_io, args => ["-setcookie", "bench"]}) of
        {ok, Peer, Node} ->
            net_kernel:monitor_nodes(true),
            Work(Peer, Node),
            net_kernel:monitor_nodes(false),
            peer:stop(Peer);
        _ ->
            ok
    end.

connect(Node) ->
    true = net_kernel:connect_node(Node),
    receive {nodeup, Node} -> ok after timer:seconds(?SECONDS_EACH) -> exit(no_nodeup) end.

disconnect(Node) ->
    true = erlang:disconnect_node(Node),
    receive {nodedown, Node} -> ok after timer:seconds(?SECONDS_EACH) -> exit(no_nodedown) end.

%% A node connects to a second one, and lets it go.
handshakes(Count) ->
    with_node(fun(_Peer, Node) ->
        Once = fun() -> connect(Node), disconnect(Node) end,
        least(handshake, Count, fun() -> elapsed(fun() -> repeat(Count, Once) end) end)
    end).

%% A peer's rows, from their external format, which a line has in hex.
sync(Key, Groups, Script) ->
    Rows = term_to_binary(Groups),
    Line = [<<"frame 1 ">>, binary:encode_hex(Rows), $\n],
    with_rows(Groups, fun(Give) ->
        Answer = fun([<<"frame">>, _, Hex]) -> Give(binary_to_term(binary:decode_hex(Hex))), <<"ok\n">> end,
        bare_sync_of(Key, Rows, Give),
        least(Key, 1, fun() -> Give([]), played(Script, 1, Line, Answer) end)
    end).

%% The same without lines.
bare_sync(Key, Groups) ->
    Rows = term_to_binary(Groups),
    with_rows(Groups, fun(Give) -> bare_sync_of(Key, Rows, Give) end).

bare_sync_of(Key, Rows, Give) ->
    least(bare(Key), 1, fun() -> Give([]), elapsed(fun() -> Give(binary_to_term(Rows)) end) end).

%% Work with a peer's rows, which are given to a scope, and taken by it.
with_rows(Groups, Work) ->
    with_scope(bench, fun(Scope) ->
        Peer = sink(),
        Scope ! {discover, Peer},
        Work(fun(Term) -> gen_server:cast(Scope, {sync, Peer, Term}), taken(Scope) end),
        stop([Peer])
    end),
    stop(lists:append([Pids || {_, Pids} <- Groups])).

%% The connection to a node with 64 groups of 64 processes in each scope is gone.
loss(Count) ->
    with_node(fun(Peer, Node) ->
        Scopes = [scope(I) || I <- lists:seq(1, Count)],
        Started = [element(2, pg:start(Scope)) || Scope <- Scopes],
        Pids = [peer:call(Peer, erlang, spawn, [timer, sleep, [infinity]]) || _ <- lists:seq(1, 64)],
        [begin
             {ok, _} = peer:call(Peer, pg, start, [Scope]),
             [ok = peer:call(Peer, pg, join, [Scope, group(I), Pids]) || I <- lists:seq(1, 64)]
         end || Scope <- Scopes],
        least(loss, 1, fun() ->
            alone(Peer, Node),
            connect(Node),
            [listed(Scope, 64) || Scope <- Scopes],
            elapsed(fun() -> disconnect(Node), [listed(Scope, 0) || Scope <- Scopes] end)
        end),
        stop(Started)
    end).

told(Count, Pairs) ->
    with_scope(bench, fun(Scope) ->
        [Pid | Peers] = pids(Count + 1),
        [Scope ! {discover, Peer} || Peer <- Peers],
        taken(Scope),
        least(told, Pairs, fun() -> elapsed(fun() -> repeat(Pairs, fun() -> pair(Scope, Pid) end) end) end),
        stop([Pid | Peers])
    end).

%% Joins and leaves, with this many processes that watch.
watched(Key, Count, Watch, Pairs) ->
    with_scope(bench, fun(Scope) ->
        Pid = sink(),
        Own = self(),
        Watchers = [spawn(fun() -> Watch(Scope), Own ! watching, drop() end) || _ <- lists:seq(1, Count)],
        [receive watching -> ok end || _ <- Watchers],
        least(Key, Pairs, fun() -> elapsed(fun() -> repeat(Pairs, fun() -> pair(Scope, Pid) end) end) end),
        stop([Pid | Watchers])
    end).
