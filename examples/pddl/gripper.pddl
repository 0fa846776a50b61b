(define (problem three-balls)
  (:domain gripper)
  (:objects kitchen hall red green blue left right)
  (:init
    (room kitchen) (room hall) (ball red) (ball green) (ball blue) (gripper left) (gripper right)
    (robot-in kitchen) (ball-in red kitchen) (ball-in green kitchen) (ball-in blue kitchen) (free left) (free right))
  (:goal (and (ball-in red hall) (ball-in green hall) (ball-in blue hall))))
