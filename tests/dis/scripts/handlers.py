try:
    a
except b:
    c
except (d,
        e) as f:
    raise
except:
    raise g from h
else:
    i
finally:
    j
