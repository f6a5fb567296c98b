one
@i b.w
three
