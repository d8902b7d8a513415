#!/usr/bin/env escript
%% One, two and four processes that join, ask for the members and leave at once, on OTP's own pg, by the clock: a line
%% `threads_N NANOSECONDS` for each, an event of all together, the least of 15 runs after one that isn't counted.
-mode(compile).
-define(RUNS, 15).
-define(TURNS, 20000).

main(_) ->
    {ok, _} = pg:start(bench),
    [crowd(Callers) || Callers <- [1, 2, 4]].

crowd(Callers) ->
    together(Callers),
    Least = lists:min([together(Callers) || _ <- lists:seq(1, ?RUNS)]),
    io:format("threads_~b ~b~n", [Callers, Least div (3 * ?TURNS * Callers)]).

%% The nanoseconds from the word to begin until each has said that it is done.
together(Callers) ->
    Own = self(),
    Pids = [spawn_link(fun() -> receive begin_now -> ok end, turns(?TURNS), Own ! {done, self()} end)
            || _ <- lists:seq(1, Callers)],
    Start = erlang:monotonic_time(nanosecond),
    [Pid ! begin_now || Pid <- Pids],
    [receive {done, Pid} -> ok end || Pid <- Pids],
    erlang:monotonic_time(nanosecond) - Start.

turns(0) -> ok;
turns(N) ->
    ok = pg:join(bench, g, self()),
    true = lists:member(self(), pg:get_members(bench, g)),
    ok = pg:leave(bench, g, self()),
    turns(N - 1).
