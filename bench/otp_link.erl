%% What bench/otp_link.py asks of its stock nodes: the measures, each by the clock of the system in
%% nanoseconds, and a Unix socket that takes lines of pg_node. The node that asks is linked with a
%% peer, at whose Unix socket it is a client.
-module(otp_link).
-export([serve/1, line/3, out/3, in/3, called/3, watch/1, sync_out/4, sync_in/4]).
-export([told/3, told_called/3, heard/3, change/1, flood/2, sink/0]).
-define(SOCKET, [binary, {packet, line}, {buffer, 65536}]).
-define(PAUSE, 20). % milliseconds before a single join, or line
-define(AHEAD, 100). % lines in the mailbox of who serves them: each send looks through it

clock() -> os:system_time(nanosecond).

%% A process that drops what it is sent, and says when it has.
sink() ->
    receive
        {taken, From} -> From ! taken, sink();
        _ -> sink()
    end.

%% Until the scope has taken what it was sent before.
taken() -> not_joined = pg:leave(jobs, nobody, self()).

words(Line) -> binary:split(binary:part(Line, 0, byte_size(Line) - 1), <<" ">>, [global]).

%% Serves a Unix socket: a process for each connection, which calls pg itself, and whose processes
%% end with it.
serve(Path) ->
    {ok, Listener} = gen_tcp:listen(0, [{ifaddr, {local, Path}}, {active, false} | ?SOCKET]),
    spawn(fun() -> accept(Listener) end),
    ok.

accept(Listener) ->
    {ok, Socket} = gen_tcp:accept(Listener),
    Server = spawn(fun() -> receive begin_now -> talk(Socket) end end),
    ok = gen_tcp:controlling_process(Socket, Server),
    ok = inet:setopts(Socket, [{active, ?AHEAD}]),
    Server ! begin_now,
    accept(Listener).

talk(Socket) ->
    receive
        {tcp, Socket, Line} ->
            ok = gen_tcp:send(Socket, [answer(words(Line)), $\n]),
            talk(Socket);
        {Ref, Event, Group, Pids} when is_reference(Ref) ->
            Group =:= last andalso taken(), % (of a sync all groups, then)
            ok = gen_tcp:send(Socket, ["! ", atom_to_list(Event), " 0 ", atom_to_list(Group), $\s,
                                       integer_to_list(length(Pids)), texts(Pids), $\n]),
            talk(Socket);
        {tcp_passive, Socket} ->
            ok = inet:setopts(Socket, [{active, ?AHEAD}]),
            talk(Socket);
        {tcp_closed, Socket} ->
            exit(shutdown)
    end.

answer([<<"spawn">>]) -> ["pid ", pid_to_list(spawn_link(fun sink/0))];
answer([<<"groups">>, _]) -> ["groups", [[$\s, atom_to_list(G)] || G <- pg:which_groups(jobs)]];
answer([Word, _, Group | Pids]) -> answer(Word, binary_to_atom(Group), Pids).

answer(<<"join">>, Group, Pids) -> atom_to_list(pg:join(jobs, Group, pids(Pids)));
answer(<<"leave">>, Group, Pids) -> atom_to_list(pg:leave(jobs, Group, pids(Pids)));
answer(<<"monitor">>, Group, []) -> ["ref 0", texts(element(2, pg:monitor(jobs, Group)))];
answer(<<"members">>, Group, []) -> ["pids", texts(pg:get_members(jobs, Group))].

pids([Pid]) -> list_to_pid(binary_to_list(Pid));
pids(Pids) -> [pids([Pid]) || Pid <- Pids].

texts(Pids) -> [[$\s, pid_to_list(Pid)] || Pid <- Pids].

%% A client of a peer.
open(Path) ->
    {ok, Socket} = gen_tcp:connect({local, Path}, 0, [{active, true} | ?SOCKET]),
    Socket.

ask(Socket, Line) ->
    ok = gen_tcp:send(Socket, [Line, $\n]),
    answered(Socket).

answered(Socket) ->
    receive
        {tcp, Socket, <<"! ", _/binary>>} -> answered(Socket);
        {tcp, Socket, Line} -> words(Line)
    end.

spawned(Socket, Count) ->
    ok = gen_tcp:send(Socket, lists:duplicate(Count, "spawn\n")),
    [lists:nth(2, answered(Socket)) || _ <- lists:seq(1, Count)].

text(Word, Group, Pids) ->
    iolist_to_binary([atom_to_list(Word), " jobs ", Group, [[$\s, Pid] || Pid <- Pids], $\n]).

%% The client goes, and its rows.
close(Socket) ->
    gen_tcp:close(Socket),
    no_rows().

no_rows() -> pg:which_groups(jobs) =:= [] orelse begin timer:sleep(10), no_rows() end.

%% The times of single joins, each followed by a leave, behind one that isn't counted.
times(Count, Change, Told) ->
    tl([begin
            timer:sleep(?PAUSE),
            Begin = clock(),
            Change(join),
            End = Told(join),
            Change(leave),
            Told(leave),
            End - Begin
        end || _ <- lists:seq(0, Count)]).

%% From a line that changes nothing to its answer.
line(Path, _Peer, Count) ->
    Socket = open(Path),
    Times = [begin
                 timer:sleep(?PAUSE),
                 Begin = clock(),
                 [<<"pids">>] = ask(Socket, "members jobs nobody"),
                 clock() - Begin
             end || _ <- lists:seq(0, Count)],
    close(Socket),
    tl(Times).

%% From a join's line, written to the peer, to pg's message of a monitor here.
out(Path, _Peer, Count) ->
    Socket = open(Path),
    Pids = spawned(Socket, 1),
    {Ref, []} = pg:monitor(jobs, g),
    Change = fun(Word) -> ok = gen_tcp:send(Socket, text(Word, "g", Pids)) end,
    Times = times(Count, Change, fun(Word) ->
        End = receive {Ref, Word, g, [_]} -> clock() end,
        [<<"ok">>] = answered(Socket),
        End
    end),
    pg:demonitor(jobs, Ref),
    close(Socket),
    Times.

%% From a call of pg:join here to the line of a monitor, read from the peer.
in(Path, _Peer, Count) ->
    Socket = open(Path),
    [<<"ref">> | _] = ask(Socket, "monitor jobs g"),
    Pid = spawn(fun sink/0),
    Change = fun(Word) -> ok = pg:Word(jobs, g, Pid) end,
    Times = times(Count, Change, fun(_) ->
        receive {tcp, Socket, <<"! ", _/binary>>} -> clock() end
    end),
    exit(Pid, kill),
    close(Socket),
    Times.

%% From a call of pg:join here to pg's message of a monitor at the peer, without lines.
called(_Path, Peer, Count) ->
    Watcher = spawn(Peer, ?MODULE, watch, [self()]),
    receive watching -> ok end,
    Pid = spawn(fun sink/0),
    Change = fun(Word) -> ok = pg:Word(jobs, g, Pid) end,
    Times = times(Count, Change, fun(Word) -> receive {Word, End} -> End end end),
    [exit(Process, kill) || Process <- [Pid, Watcher]],
    no_rows(),
    Times.

watch(To) ->
    {Ref, []} = pg:monitor(jobs, g),
    To ! watching,
    watch(Ref, To).

watch(Ref, To) -> receive {Ref, Word, g, [_]} -> To ! {Word, clock()}, watch(Ref, To) end.

%% A sync of so many rows in so many groups and one, of which the last row tells: from the link's
%% coming up here.
sync_out(Path, Peer, Rows, Groups) ->
    alone(Peer),
    Socket = open(Path),
    [Last | Pids] = spawned(Socket, Rows),
    Placed = [{"last", [Last]} | placed(Pids, Groups)],
    Lines = [text(join, Group, Some) || {Group, Of} <- Placed, Some <- pieces(Of)],
    ok = gen_tcp:send(Socket, Lines),
    [[<<"ok">>] = answered(Socket) || _ <- Lines],
    {Ref, []} = pg:monitor(jobs, last),
    Time = from_up(Peer, fun() -> receive {Ref, join, last, [_]} -> taken() end end),
    Rows = lists:sum([length(pg:get_members(jobs, Group)) || Group <- pg:which_groups(jobs)]),
    pg:demonitor(jobs, Ref),
    close(Socket),
    [Time].

sync_in(Path, Peer, Rows, Groups) ->
    alone(Peer),
    [Last | Pids] = All = [spawn(fun sink/0) || _ <- lists:seq(1, Rows)],
    [ok = pg:join(jobs, list_to_atom(Group), Of) || {Group, Of} <- placed(Pids, Groups)],
    ok = pg:join(jobs, last, Last),
    Socket = open(Path),
    [<<"ref">>, _] = ask(Socket, "monitor jobs last"),
    Time = from_up(Peer, fun() -> receive {tcp, Socket, <<"! join", _/binary>>} -> ok end end),
    ok = inet:setopts(Socket, [{buffer, 1 bsl 20}]),
    2 = length(ask(Socket, "groups jobs")) - Groups,
    1 = length(ask(Socket, "members jobs g1")) - length(Pids) div Groups,
    [exit(Pid, kill) || Pid <- All],
    close(Socket),
    [Time].

placed(Pids, 1) -> [{"g1", Pids}];
placed(Pids, Groups) ->
    [{"g" ++ integer_to_list(I), [Pid]} || {I, Pid} <- lists:zip(lists:seq(1, Groups), Pids)].

pieces(Pids) when length(Pids) =< 50 -> [Pids];
pieces(Pids) -> {Some, Others} = lists:split(50, Pids), [Some | pieces(Others)].

%% Ends the link, again if a scope has opened it anew.
alone(Peer) ->
    erlang:disconnect_node(Peer),
    timer:sleep(300),
    lists:member(Peer, nodes(connected)) andalso alone(Peer).

from_up(Peer, Await) ->
    ok = net_kernel:monitor_nodes(true, [{node_type, all}]),
    spawn(fun() -> true = net_kernel:connect_node(Peer) end),
    Begin = receive {nodeup, Peer, _} -> clock() end,
    Await(),
    Time = clock() - Begin,
    ok = net_kernel:monitor_nodes(false, [{node_type, all}]),
    Time.

%% From the first of so many pairs of lines, a join and a leave, to the message here of a last join.
told(Path, _Peer, Pairs) ->
    Socket = open(Path),
    Pids = spawned(Socket, 1),
    Pair = [text(join, "g", Pids), text(leave, "g", Pids)],
    Lines = iolist_to_binary([lists:duplicate(Pairs, Pair), text(join, "last", Pids)]),
    Time = to_last(fun() -> ok = gen_tcp:send(Socket, Lines) end, fun() ->
        [[<<"ok">>] = answered(Socket) || _ <- lists:seq(0, 2 * Pairs)]
    end),
    close(Socket),
    [Time].

%% The same by calls of pg at the peer, without lines.
told_called(_Path, Peer, Pairs) ->
    Time = to_last(fun() -> spawn(Peer, ?MODULE, change, [Pairs]) end, fun() -> ok end),
    no_rows(),
    [Time].

%% From the first of so many pairs of calls here to the line of a last join, read from the peer.
heard(Path, _Peer, Pairs) ->
    Socket = open(Path),
    [<<"ref">>] = lists:droplast(ask(Socket, "monitor jobs last")),
    Begin = clock(),
    Changer = spawn(?MODULE, change, [Pairs]),
    Time = receive {tcp, Socket, <<"! join", _/binary>>} -> clock() - Begin end,
    exit(Changer, shutdown),
    close(Socket),
    [Time].

change(Pairs) ->
    Pid = spawn_link(fun sink/0),
    [begin ok = pg:join(jobs, g, Pid), ok = pg:leave(jobs, g, Pid) end || _ <- lists:seq(1, Pairs)],
    ok = pg:join(jobs, last, Pid),
    timer:sleep(1000),
    exit(shutdown).

to_last(Tell, Answered) ->
    {Ref, []} = pg:monitor(jobs, last),
    Begin = clock(),
    spawn_link(Tell),
    Answered(),
    receive {Ref, join, last, [_]} -> ok end,
    Time = clock() - Begin,
    pg:demonitor(jobs, Ref),
    Time.

%% Messages to the member of a group, until the last is taken: a process of pg_node answers a
%% monitor behind them.
flood(Group, Count) ->
    [Pid] = pg:get_members(jobs, Group),
    Begin = clock(),
    [Pid ! x || _ <- lists:seq(1, Count)],
    Pid ! {taken, self()},
    Ref = monitor(process, Pid),
    receive
        taken -> demonitor(Ref, [flush]);
        {'DOWN', Ref, process, Pid, _} -> ok
    end,
    [clock() - Begin].
