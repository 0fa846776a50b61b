% It rains or not, and I am dry or wet. Rain makes me wet unless I have an umbrella.
:- constants rain, umbrella, wet :: simpleFluent.
caused wet if rain & -umbrella.
caused -wet if umbrella.
caused false if wet & -rain.
:- query maxstep :: 0.
