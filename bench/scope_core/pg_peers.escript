#!/usr/bin/env escript
%% Times OTP's pg on the rows of a peer: the counterpart of the last lines of main.rt.txt, the least of 5 runs, of a leave of one.
%% pg knows a peer by the process of its scope, which is a process of this node here. Its members are pids of other nodes.
%% pg takes the end of such a process for the end of a member, so the rows are dropped by a Sync of none.

main(_) -> [scene(Scene) || Scene <- scenes()].

scenes() ->
    [{1, 1, 0, 0}, {4096, 1, 0, 0}, {4096, 4096, 0, 0}, {1, 1, 1, 4096}, {1, 4096, 1, 4096},
     {64, 64, 63, 64}, {4096, 64, 63, 64}, {4096, 4096, 15, 4096}].

scene({Rows, Groups, Others, Each}) ->
    {ok, _} = pg:start(scope),
    [sync(peer(), stated(2 * Other, Each, Groups)) || Other <- lists:seq(1, Others)],
    Stated = stated(Others bor 1, Rows, Groups),
    Times = [times(Stated) || _ <- lists:seq(1, 5)],
    Least = [lists:min(Column) || Column <- columns(Times)],
    io:format("~b rows of a peer over ~b groups, ~b others with ~b each: sync ~b, again ~b, drop ~b, join ~b, leave ~b ns~n",
              [Rows, Groups, Others, Each] ++ Least ++ [leave(Stated)]),
    gen_server:stop(scope).

columns([[] | _]) -> [];
columns(Times) -> [[hd(Row) || Row <- Times] | columns([tl(Row) || Row <- Times])].

times(Stated) ->
    Peer = peer(),
    Sync = timed(fun() -> sync(Peer, Stated) end),
    Again = timed(fun() -> sync(Peer, Stated) end),
    Drop = timed(fun() -> sync(Peer, []) end),
    Join = timed(fun() -> join(Peer, Stated) end),
    sync(Peer, []),
    [Sync, Again, Drop, Join].

leave(Stated) ->
    Peer = peer(),
    sync(Peer, Stated),
    Leave = timed(fun() -> [whereis(scope) ! {leave, Peer, Pids, [Group]} || {Group, Pids} <- Stated], settled() end),
    sync(Peer, []),
    Leave.

timed(Call) ->
    erlang:garbage_collect(whereis(scope)),
    Start = erlang:monotonic_time(nanosecond),
    Call(),
    erlang:monotonic_time(nanosecond) - Start.

peer() -> spawn(fun() -> receive stop -> ok end end).

sync(Peer, Stated) ->
    gen_server:cast(scope, {sync, Peer, Stated}),
    settled().

join(Peer, Stated) ->
    [whereis(scope) ! {join, Peer, Group, Pids} || {Group, Pids} <- Stated],
    settled().

%% The scope has done what was sent before.
settled() -> not_joined = pg:leave(scope, no_group, self()).

%% So many pids of a node, spread over so many groups, each group with its pids.
stated(Node, Rows, Groups) ->
    Name = "peer" ++ integer_to_list(Node + 1000) ++ "@h",
    maps:to_list(lists:foldl(fun(Number, Map) ->
                                     Group = list_to_atom("group" ++ integer_to_list(Number rem Groups + 1000)),
                                     Pid = pid(list_to_binary(Name), Number),
                                     maps:update_with(Group, fun(Pids) -> [Pid | Pids] end, [Pid], Map)
                             end, #{}, lists:seq(0, Rows - 1))).

%% A pid of a node, as the distribution protocol writes it.
pid(Name, Number) -> binary_to_term(<<131, 88, 119, (byte_size(Name)), Name/binary, Number:32, 0:32, 4:32>>).
