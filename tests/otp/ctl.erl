%% What a case asks of a stock node: one Erlang expression list a line on standard input, and
%% `ANS TERM` a line on standard output.
-module(ctl).
-export([main/0, log/0, told/0, member/0, keeper/0, view/1, text/1, process/1, members/2]).

main() ->
    spawn(fun() ->
        register(ctl_log, spawn(?MODULE, log, [])),
        loop(erl_eval:new_bindings())
    end).

loop(B) ->
    case io:get_line("") of
        eof -> halt(0);
        {error, _} -> halt(1);
        Line ->
            {R, B2} = try eval(Line, B) catch C:E -> {{'EXC', C, E}, B} end,
            io:format("ANS ~0p~n", [R]),
            loop(B2)
    end.

eval(Line, B) ->
    {ok, T, _} = erl_scan:string(Line),
    {ok, X} = erl_parse:parse_exprs(T),
    {value, V, B2} = erl_eval:exprs(X, B),
    {V, B2}.

%% keeps all node events
log() ->
    _ = (catch net_kernel:monitor_nodes(true, [{node_type, all}, nodedown_reason])),
    log([]).
log(L) ->
    receive
        {get, P} -> P ! {log, lists:reverse(L)}, log([]);
        M -> log([M | L])
    end.

told() -> ctl_log ! {get, self()}, receive {log, L} -> L after 5000 -> timeout end.

%% a process to be a member
member() -> receive stop -> ok; {exit, R} -> exit(R); _ -> member() end.

%% a process that keeps its messages
keeper() -> keeper([]).
keeper(L) ->
    receive {get, P} -> P ! {self(), lists:reverse(L)}, keeper([]); stop -> ok; M -> keeper([M | L]) end.

%% a process as pg_node writes it
process(P) ->
    <<131, 88, 119, L, Name:L/binary, Id:32, Serial:32, Creation:32>> = term_to_binary(P, [{minor_version, 2}]),
    lists:flatten(io_lib:format("~s/~b/~b", [Name, Creation, Serial bsl 32 + Id])).

%% a group as pg_node writes it
text(G) ->
    <<131, Raw/binary>> = term_to_binary(G, [{minor_version, 2}]),
    Hex = "#x:" ++ [hd(io_lib:format("~.16b", [N])) || <<N:4>> <= Raw],
    Text = if
        is_atom(G) -> atom_to_list(G);
        is_binary(G) -> "#b:" ++ binary_to_list(G);
        true -> Hex
    end,
    Plain = lists:all(fun(C) -> C >= 16#21 andalso C =< 16#7e end, Text) andalso Text =/= [],
    lists:flatten(case Plain of true -> Text; false -> Hex end).

members(Scope, G) -> lists:sort([process(P) || P <- pg:get_members(Scope, G)]).

%% all that a scope lists, a line for each row
view(Scope) ->
    lists:sort([text(G) ++ " " ++ process(P) || G <- pg:which_groups(Scope), P <- pg:get_members(Scope, G)]).
