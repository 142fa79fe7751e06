x
@i a.w
