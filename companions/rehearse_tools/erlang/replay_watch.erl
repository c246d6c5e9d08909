%% What the nodes tell: what happens there, which is kept for the step in which it does, and their answers to questions.
-module(replay_watch).
-export([until/2, next/2, standing/2, looked/3]).
%% So long a question is waited for, and so far back a node tells what it has used, in milliseconds.
-define(LONGEST_ANSWER, 2000).
-define(USED_TIME, 2000).
%% So many reductions in a second make a node busy: one of which nothing is asked made up to 7,000, and of two that send each
%% other messages for ever each made 40,000 and more, also on a machine that left them 0.04 of a processor.
-define(BUSY, 20000).

%% Keeps what happens until a moment.
until(End, Run) ->
    case next(max(0, End - replay_lab:now_ms()), Run) of
        {none, New} -> New;
        {_, New} -> until(End, New)
    end.

%% The next event within so many milliseconds, which is kept; or none.
next(Time, #{lab := Lab} = Run) ->
    case replay_lab:next(Time, Lab) of
        {none, New} -> {none, Run#{lab := New}};
        {{_, Event} = Timed, New} -> {Event, noted(Timed, Run#{lab := New})}
    end.

noted({_, Event} = Timed, #{got := Got, kinds := Kinds, told := Told} = Run) ->
    Kept = Run#{got := lists:keysort(1, Got ++ [Timed])},
    case Event of
        {started, App, Node, Kind} -> Kept#{kinds := Kinds#{{App, Node} => Kind}};
        {ended, Node} -> Kept#{told := [T || {_, At} = T <- Told, At =/= Node], ended := replay_lab:now_ms()};
        _ -> Kept
    end.

%% ---- Questions

%% What runs at a node, in the order of the starts, what is started, with its type, and what is being started.
standing(Node, Run) ->
    case asked([Node], standing, Run) of
        {[{_, {_, _, _} = Standing}], Asked} -> {Standing, Asked};
        {_, Asked} -> {{[], [], []}, Asked}
    end.

%% What these nodes answer to a question, each that is up and answers in time.
asked(Nodes, Question, Run) ->
    {Numbers, Sent} = lists:mapfoldl(fun(Node, #{lab := Lab} = So) ->
        {Number, New} = replay_lab:ask(Node, replay_node, Question, [], Lab),
        {{Number, Node}, So#{lab := New}}
    end, Run, up(Nodes, Run)),
    answered(Numbers, replay_lab:now_ms() + ?LONGEST_ANSWER, [], Sent).

up(Nodes, #{lab := Lab}) -> [Node || Node <- Nodes, replay_lab:mode(Node, Lab) =:= up].

answered([], _, Answers, Run) -> {Answers, Run};
answered(Numbers, End, Answers, #{lab := Lab} = Run) ->
    case replay_lab:next(max(0, End - replay_lab:now_ms()), Lab) of
        {none, New} -> {Answers, Run#{lab := New}};
        {{_, {answer, Number, Answer}} = Timed, New} ->
            case lists:keytake(Number, 1, Numbers) of
                {value, {_, Node}, Rest} -> answered(Rest, End, Answers ++ [{Node, Answer}], Run#{lab := New});
                false -> answered(Numbers, End, Answers, noted(Timed, Run#{lab := New}))
            end;
        {{_, {ended, Node}} = Timed, New} ->
            answered([N || {_, At} = N <- Numbers, At =/= Node], End, Answers, noted(Timed, Run#{lab := New}));
        {Timed, New} -> answered(Numbers, End, Answers, noted(Timed, Run#{lab := New}))
    end.

%% What there is to be told of the nodes behind a command. Where some of them don't answer, where the processes stand that a
%% start goes through: at these nodes, and at others where one is in the middle of something. And which nodes are busy, each
%% with its share of a processor; behind the last command one that seems to be is looked at for as long as that takes.
looked(Silent, IsLast, #{nodes := Nodes} = Run) ->
    {Places, Asked} = case Silent of
        [] -> {[], Run};
        _ -> asked(Nodes, places, Run)
    end,
    {Busy, Done} = busy(IsLast, Asked),
    Stands = [{Node, Process, Place, Length} || Node <- Nodes, {At, Told} <- Places, At =:= Node, is_list(Told),
              {Process, Place, Length} <- Told, Place =/= idle orelse lists:member(Node, Silent)],
    {Stands, [One || Node <- Nodes, {At, _} = One <- Busy, At =:= Node], Done}.

busy(IsLast, #{nodes := Nodes} = Run) ->
    {Told, Asked} = asked(Nodes, used, Run),
    Seems = [{Node, Long} || {Node, {Long, [Now]}} <- Told, Now > ?BUSY],
    Busy = [{Node, Share} || {Node, [{Share, Reductions}]} <- Seems, Reductions > ?BUSY],
    case IsLast andalso length(Busy) < length(Seems) of
        true -> busy(false, until(replay_lab:now_ms() + ?USED_TIME, Asked));
        false -> {Busy, Asked}
    end.
