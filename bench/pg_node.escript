#!/usr/bin/env escript
%% A node with OTP's own pg, for bench/pg_node.py, which speaks to it in the lines of pg_node: `pg_node.escript SOCKET [PEER]`, with its name
%% and cookie in ERL_FLAGS. It serves the Unix socket SOCKET, prints `ready`, connects to the PEER, and ends with its standard input. A process
%% for each connection reads the lines, and calls pg itself; a join that it watches comes as pg's message.
-mode(compile).

main([Path | Peers]) ->
    {ok, _} = pg:start(pg),
    {ok, Listener} = gen_tcp:listen(0, [{ifaddr, {local, Path}}, binary, {packet, line}, {buffer, 65536}, {active, false}]),
    spawn_link(fun() -> accept(Listener) end),
    io:put_chars("ready\n"),
    [true = net_kernel:connect_node(list_to_atom(Peer)) || Peer <- Peers],
    eof = until_eof(),
    halt(0, [{flush, false}]).

until_eof() ->
    case io:get_line("") of
        eof -> eof;
        _ -> until_eof()
    end.

accept(Listener) ->
    {ok, Socket} = gen_tcp:accept(Listener),
    Server = spawn(fun() -> receive begin_now -> serve(Socket) end end),
    ok = gen_tcp:controlling_process(Socket, Server),
    Server ! begin_now,
    accept(Listener).

serve(Socket) ->
    ok = net_kernel:monitor_nodes(true),
    ok = inet:setopts(Socket, [{active, true}]),
    talk(Socket).

talk(Socket) ->
    receive
        {tcp, Socket, Line} ->
            ok = gen_tcp:send(Socket, [answer(binary:split(binary:part(Line, 0, byte_size(Line) - 1), <<" ">>, [global])), $\n]),
            talk(Socket);
        {Ref, Event, Group, Pids} when is_reference(Ref) ->
            ok = gen_tcp:send(Socket, ["! ", atom_to_list(Event), " 0 ", Group, $\s, integer_to_list(length(Pids)), texts(Pids), $\n]),
            talk(Socket);
        {nodeup, Node} ->
            ok = gen_tcp:send(Socket, ["! up ", atom_to_list(Node), " 0 visible\n"]),
            talk(Socket);
        {nodedown, _} ->
            talk(Socket);
        {tcp_closed, Socket} ->
            ok
    end.

answer([<<"start">>, _]) -> "ok";
answer([<<"size">>]) -> "size 0"; % (pg keeps no audit; an answer says that the connection is told of nodes from now on)
answer([<<"spawn">>]) -> ["pid ", pid_to_list(spawn(fun() -> receive never -> ok end end))];
answer([<<"join">>, _, Group, Pid]) -> atom_to_list(pg:join(pg, Group, list_to_pid(binary_to_list(Pid))));
answer([<<"join">>, _, Group | Pids]) -> atom_to_list(pg:join(pg, Group, [list_to_pid(binary_to_list(Pid)) || Pid <- Pids]));
answer([<<"leave">>, _, Group, Pid]) -> atom_to_list(pg:leave(pg, Group, list_to_pid(binary_to_list(Pid))));
answer([<<"monitor">>, _, Group]) ->
    {_, Pids} = pg:monitor(pg, Group),
    ["ref 0", texts(Pids)];
answer([<<"members">>, _, Group]) -> ["pids", texts(pg:get_members(pg, Group))];
answer([<<"nodes">>]) -> ["nodes", [[$\s, atom_to_list(Node)] || Node <- nodes()]].

texts(Pids) -> [[$\s, pid_to_list(Pid)] || Pid <- Pids].
